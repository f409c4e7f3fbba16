# Decides by Mojo::DOM, on its own tree (libmojolicious-perl). See __init__.py for what it reads.

use strict;
use warnings;

use Mojo::DOM;
use Mojo::JSON qw(decode_json encode_json);
use Scalar::Util qw(refaddr weaken);

sub tree_of {
    my ($elements) = @_;
    my $root = ['root'];
    my (@made, %numbers);
    for my $element (@$elements) {
        my ($parent, undef, $name, $attributes) = @$element;
        my %written = map { (defined $_->[0] ? "$_->[0]:$_->[1]" : $_->[1]) => $_->[2] } @$attributes;
        my $outside = defined $parent ? $made[$parent] : $root;
        my $tree = ['tag', $name, \%written, $outside];
        weaken $tree->[3];
        push @$outside, $tree;
        $numbers{refaddr $tree} = @made;
        push @made, $tree;
    }
    return Mojo::DOM->new->tree($root), \%numbers;
}

sub answer {
    my ($dom, $numbers, $selector) = @_;
    my $found = eval { $dom->find($selector) };
    return "$@" unless $found;
    return [sort { $a <=> $b } map { $numbers->{refaddr $_->tree} } @$found];
}

$| = 1;
while (my $line = <STDIN>) {
    my $asked = decode_json $line;
    my ($dom, $numbers) = tree_of($asked->{elements});
    print encode_json([map { answer($dom, $numbers, $_) } @{$asked->{selectors}}]), "\n";
}
