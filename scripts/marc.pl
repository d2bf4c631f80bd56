#!/usr/bin/perl
# Reads the MARC records of a repository: harvested by the library HTTP::OAI, read by MARC::File::XML. It prints a JSON list a record: the
# identifier, the leader, and of each field the tag and its text, or the tag, the indicators and the subfields.
# Usage: marc.pl BASE PREFIX
use strict;
use warnings;
use HTTP::OAI;
use JSON::PP;
use MARC::File::XML;
use MARC::Record;

my ($base, $prefix) = @ARGV;
my $json = JSON::PP->new->canonical->utf8;

sub field_of {
    my ($it) = @_;
    return [$it->tag, $it->data] if $it->is_control_field;
    return [$it->tag, $it->indicator(1), $it->indicator(2), map { @$_ } $it->subfields];
}

sub told {
    my ($it) = @_;
    my ($root) = $it->metadata->dom->findnodes('*/*');
    my $record = MARC::Record->new_from_xml($root->toString, 'UTF-8');
    print $json->encode([$it->identifier, $record->leader, map { field_of($_) } $record->fields]), "\n";
}

my $response = HTTP::OAI::Harvester->new(baseURL => $base)->ListRecords(metadataPrefix => $prefix, onRecord => \&told);
die 'marc: ' . $response->code . ' ' . $response->message . "\n" if $response->is_error;
