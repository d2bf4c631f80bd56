# Proves and builds PROGRAM, and before it each crate that it stands on, as crates.txt names them; bin/proved calls it in the folder of the repository.
# By -j crates that do not stand on one another are built side by side, each in a room of its own in the folder ROOMS (build-library). Make begins with
# the crate that a line of crates.txt names first: there the one with the longest way below it stands. What has not changed takes rt a moment.

named = $(shell sed -nE 's/^$1( [^:]*)?://p' crates.txt)
used = $(filter $(notdir $(wildcard crates/*)),$(call named,$1))
below = $(sort $(foreach crate,$(call used,$1),$(crate) $(call below,$(crate))))
libraries := $(call below,$(PROGRAM))

.PHONY: $(PROGRAM) $(libraries)
$(foreach crate,$(libraries) $(PROGRAM),$(eval $(crate): $(call used,$(crate))))

# Calls rt in the crate, by its first argument: then it says how many of how many are built, or shows the end of what rt wrote.
built = @begun=$$(date +%s); mkdir -p crates/$@/out; \
	if (cd crates/$@ && $1) </dev/null >crates/$@/out/build.log 2>&1; then \
	    echo >>$(COUNTED); echo "$(PROGRAM): $$(wc -l <$(COUNTED)) of $(words $(libraries) $(PROGRAM)): $@, $$(($$(date +%s) - begun)) s" >&2; \
	else \
	    { echo "$(PROGRAM): the build failed; the end of crates/$@/out/build.log:"; tail -n 20 crates/$@/out/build.log; } >&2; exit 1; \
	fi

$(libraries):
	$(call built,cd ../.. && bin/build-library $(PROGRAM) $(ROOMS) $(MOST) $@ $(call below,$@))

# (building runs the program too, which says how it is called: what counts is that it is there)
$(PROGRAM):
	$(call built,rt run --jobs $(MOST); test -x out/$@)
