"""What the scripts of this repository consist of: modules that several of them share, and a module for each idea. scripts/README.md lists them."""
