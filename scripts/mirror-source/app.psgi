# The data provider that mirror-trial moves from: Dancer::Plugin::Catmandu::OAI over the items of the file that ITEMS names, one JSON object a
# line. The protocol is all the plugin's; only what it searches is here. Lists come in parts of LIMIT records. Each format is a template in the
# folder TEMPLATES; marc21 and datacite are there only if it has them. If ABOUT is 1, records have what their items say about them, which the plugin
# cannot write. If PREFIX is not empty, the protocol's elements have it. It is run by starman, and needs these packages of Debian:
#     apt-get install libdancer-plugin-catmandu-oai-perl starman

# What is about each item, by its `_id`: XML texts.
my %about;

# Items by their `_id`. It knows the queries that the plugin makes: of dates, and of one identifier.
package Catmandu::Store::Lines::Bag;
use Moo;
use Catmandu::Hits;
use Cpanel::JSON::XS;
extends 'Catmandu::Store::Hash::Bag';
with 'Catmandu::CQLSearchable';

has items => (is => 'rw', default => sub { [] });
has age => (is => 'rw', default => sub { '' });

# Reads the file, where it is another one by now.
sub renew {
    my ($self) = @_;
    my $age = join ' ', (stat $ENV{ITEMS})[1, 7, 9];
    return if $age eq $self->age;
    open my $file, '<', $ENV{ITEMS} or die "$ENV{ITEMS}: $!";
    $self->items([map { decode_json($_) } <$file>]);
    %about = map { $_->{_id} => $_->{about} } @{$self->items};
    $self->age($age);
}

sub translate_cql_query { return $_[1] }
sub translate_sru_sortkeys { return }
sub delete_by_query { die 'nothing is deleted here' }
sub searcher { die 'nothing is searched for' }

sub search {
    my ($self, %arguments) = @_;
    $self->renew;
    my $query = $arguments{query};
    my ($from) = $query =~ />= "([^"]*)"/;
    my ($until) = $query =~ /<= "([^"]*)"/;
    my ($id) = $query =~ /^_id exact "(.*)"$/;
    my ($in) = $query =~ /sets any "([^"]*)"/;
    my @found = grep {
        (!defined $from || $_->{datestamp} ge $from) && (!defined $until || $_->{datestamp} le $until)
            && (!defined $id || $_->{_id} eq $id) && (!defined $in || grep { "$_:" =~ /^\Q$in\E:/ } @{$_->{sets}})
    } @{$self->items};
    my ($start, $limit) = @arguments{qw(start limit)};
    my @part = grep { defined } @found[$start .. $start + $limit - 1];
    return Catmandu::Hits->new(start => $start, limit => $limit, total => scalar @found, hits => \@part);
}

package Catmandu::Store::Lines;
use Moo;
extends 'Catmandu::Store::Hash';
$INC{'Catmandu/Store/Lines.pm'} = $INC{'Catmandu/Store/Lines/Bag.pm'} = __FILE__;

package main;
use Dancer;
use Catmandu;
use Cpanel::JSON::XS ();
use Encode ();
use Plack::Util;
use XML::LibXML;

my %sets = do { open my $file, '<', $ENV{SETS} or die "$ENV{SETS}: $!"; %{Cpanel::JSON::XS::decode_json(join '', <$file>)} };

Catmandu->config->{store}{source} = {package => 'Lines'};
set charset => 'UTF-8';
set log => 'error';
set plugins => {'Catmandu::OAI' => {
    store => 'source', bag => 'data', datestamp_field => 'datestamp', repositoryName => 'A source', uri_base => 'http://source.example/oai',
    adminEmail => 'a@source.example', earliestDatestamp => '2020-01-01T00:00:00Z', deletedRecord => 'persistent',
    repositoryIdentifier => 'source.example', limit => $ENV{LIMIT}, delimiter => ':', sampleIdentifier => 'oai:source.example:1',
    metadata_formats => [
        {metadataPrefix => 'oai_dc', schema => 'http://www.openarchives.org/OAI/2.0/oai_dc.xsd',
         metadataNamespace => 'http://www.openarchives.org/OAI/2.0/oai_dc/', template => "$ENV{TEMPLATES}/oai_dc.tt"},
        {metadataPrefix => 'jnl', schema => 'http://host.example/jnl.xsd', metadataNamespace => 'http://host.example/jnl/',
         template => "$ENV{TEMPLATES}/jnl.tt"},
        (grep { -e $_->{template} } {
            metadataPrefix => 'marc21', schema => 'http://www.loc.gov/standards/marcxml/schema/MARC21slim.xsd',
            metadataNamespace => 'http://www.loc.gov/MARC21/slim', template => "$ENV{TEMPLATES}/marc21.tt",
        }, {
            metadataPrefix => 'datacite', schema => 'http://schema.datacite.org/meta/kernel-4.4/metadata.xsd',
            metadataNamespace => 'http://datacite.org/schema/kernel-4', template => "$ENV{TEMPLATES}/datacite.tt",
        }),
    ],
    sets => [map { +{setSpec => $_, setName => $sets{$_}, cql => qq(sets any "$_")} } keys %sets],
}};

require Dancer::Plugin::Catmandu::OAI;
Dancer::Plugin::Catmandu::OAI->import;
oai_provider('/oai', deleted => sub { $_[0]{deleted} }, set_specs_for => sub { $_[0]{sets} });
my $app = dance;

# Puts behind the metadata of each record of a document numbers in the place of what its item says about it; these texts.
sub put_about {
    my @texts;
    for my $record ($_[0]->findnodes('/*/*/*[local-name() = "record"]')) {
        my ($header, $metadata) = $record->findnodes('*') or next;
        my ($id) = $header->findvalue('*[local-name() = "identifier"]') =~ /^\s*oai:source\.example:(.*?)\s*$/;
        for my $text ($metadata ? @{$about{$id}} : ()) {
            $record->addNewChild($record->namespaceURI, 'about')->appendText(scalar @texts);
            push @texts, $text;
        }
    }
    return @texts;
}

# A document with what is about its records, whose elements of the protocol have the prefix.
sub rewritten {
    my ($answer) = @_;
    my $document = XML::LibXML->load_xml(string => join '', @{$answer->[2]});
    my @texts = $ENV{ABOUT} ? put_about($document) : ();
    $document->documentElement->setNamespaceDeclPrefix('', $ENV{PREFIX}) if length $ENV{PREFIX};
    # (in place of the numbers: the texts as they are, with their own declarations of namespaces)
    $answer->[2] = [$document->toString =~ s{(about>)(\d+)(</)}{$1 . Encode::encode('UTF-8', $texts[$2]) . $3}ger];
    Plack::Util::header_set($answer->[1], 'Content-Length', length $answer->[2][0]);
    return $answer;
}

$ENV{ABOUT} || length $ENV{PREFIX} ? sub { rewritten($app->(@_)) } : $app;
