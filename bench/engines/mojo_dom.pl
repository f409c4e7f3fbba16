# Mojo::DOM on its own tree (libmojolicious-perl).

use strict;
use warnings;

use Mojo::DOM;
use Mojo::File qw(path);
use Mojo::JSON qw(encode_json);
use Mojo::Util qw(decode);
use Time::HiRes qw(clock_gettime CLOCK_MONOTONIC);

sub best {
    my ($runs, $work) = @_;
    my ($least, $given);
    for (1 .. $runs) {
        my $begin = clock_gettime(CLOCK_MONOTONIC);
        $given = $work->();
        my $spent = clock_gettime(CLOCK_MONOTONIC) - $begin;
        $least = $spent if !defined $least || $spent < $least;
    }
    return ($least, $given);
}

my ($page, $selectors, $runs) = @ARGV;
my $html = decode 'UTF-8', path($page)->slurp;
my @texts = split /\n/, decode 'UTF-8', path($selectors)->slurp;
my ($parse, $tree) = best($runs, sub { Mojo::DOM->new($html) });
my $all = sub {
    my $found = 0;
    $found += $tree->find($_)->size for @texts;
    return $found;
};
my ($first, $found) = best(1, $all);
my ($later) = best($runs, $all);
print encode_json({parse => $parse, first => $first, later => $later, found => $found}), "\n";
