#!/usr/bin/perl
# Harvests a repository with the library HTTP::OAI, and prints what it read: a JSON object a line, for each record, header, set or format,
# or for the error that was answered; with the elements about a record, and those that describe a repository or a set, where there are some. It
# follows the tokens of a list. Each document that came is written to the folder, as it came. With --pause it says {"paused":1} before it asks for the
# second document, and waits for a line.
# Usage: harvest.pl [--pause] BASE FOLDER VERB [NAME=VALUE..]
use strict;
use warnings;
use HTTP::OAI;
use JSON::PP;
use XML::LibXML;

my $pause = @ARGV && $ARGV[0] eq '--pause' && shift @ARGV;
my ($base, $folder, $verb, @arguments) = @ARGV;
my $json = JSON::PP->new->canonical->utf8;
my $documents = 0;
my $document;
$| = 1;

sub told { print $json->encode($_[0]), "\n" }

sub name_of { my ($node) = @_; return '{' . ($node->namespaceURI // '') . '}' . $node->localname }

sub header_of {
    my ($it) = @_;
    my $status = defined $it->status ? $it->status : 'live';
    return (identifier => $it->identifier, datestamp => $it->datestamp, status => $status, sets => [$it->setSpec]);
}

# An element: its name, its attributes but declarations, by their names as they are written, and its elements and texts in order.
sub tree_of {
    my ($node) = @_;
    my %attributes = map { $_->nodeName => $_->value } grep { $_->nodeName !~ /^xmlns/ } $node->attributes;
    my @inside = map { $_->nodeType == XML_ELEMENT_NODE ? tree_of($_) : $_->nodeValue } $node->childNodes;
    return [name_of($node), \%attributes, \@inside];
}

# The elements in containers of one name, under that name; nothing where there are none.
sub contained {
    my ($name, @containers) = @_;
    return @containers ? ($name => [map { tree_of($_) } map { $_->dom->findnodes('*/*') } @containers]) : ();
}

sub record_of {
    my ($it) = @_;
    return header_of($it->header) unless defined $it->metadata;
    my ($root) = $it->metadata->dom->findnodes('*/*');
    my @fields = map { [name_of($_), $_->textContent] } $root->findnodes('*');
    return (header_of($it->header), root => name_of($root), fields => \@fields, contained(about => $it->about));
}

sub entry_of {
    my ($it) = @_;
    return {record_of($it)} if $it->isa('HTTP::OAI::Record');
    return {header_of($it)} if $it->isa('HTTP::OAI::Header');
    return {setSpec => $it->setSpec, setName => $it->setName, contained(setDescription => $it->setDescription)} if $it->isa('HTTP::OAI::Set');
    return {prefix => $it->metadataPrefix, schema => $it->schema, namespace => $it->metadataNamespace};
}

sub identity_of {
    my ($it) = @_;
    return {
        repositoryName => $it->repositoryName, baseURL => $it->baseURL, protocolVersion => $it->protocolVersion,
        adminEmail => [$it->adminEmail], earliestDatestamp => $it->earliestDatestamp,
        deletedRecord => $it->deletedRecord, granularity => $it->granularity, contained(description => $it->description),
    };
}

my $harvester = HTTP::OAI::Harvester->new(baseURL => $base);
$harvester->add_handler(request_send => sub {
    if ($pause && $documents == 1) {
        told({paused => 1});
        <STDIN>;
    }
    $documents++;
    open $document, '>:raw', "$folder/$documents.xml" or die "$folder: $!";
    return;
});
$harvester->add_handler(response_data => sub { print {$document} $_[3]; 1 });
$harvester->add_handler(response_done => sub { close $document; return });

my $response = $harvester->$verb(
    (map { split /=/, $_, 2 } @arguments),
    onRecord => sub { told(entry_of($_[0])) },
);
my @errors = $response->isa('HTTP::OAI::Response') ? $response->errors : ();
die 'harvest: ' . $response->code . ' ' . $response->message . "\n" if $response->is_error && !@errors;
told({error => $_->code}) for @errors;
if ($verb eq 'Identify') { told(identity_of(($response->content)[-1])) }
elsif ($verb eq 'ListMetadataFormats') { while (my $it = $response->next) { told(entry_of($it)) } }
