# Processes that share a hash by IPC::Shareable: a segment for it and for each hash within, and a set of semaphores as
# its lock.
use strict;
use warnings;
use IPC::Shareable qw(:lock);

$| = 1;
my %wanted = (key => 'ipcd', size => 8192, mode => 0600);
tie my %shared, 'IPC::Shareable', {%wanted, create => 1, exclusive => 1, destroy => 1} or die "tie: $!";
%shared = (count => 0, names => {first => 'one'});

my @children;
for my $number (1 .. 3) {
    my $child = fork // die "fork: $!";
    if ($child == 0) {
        my $own = tie my %own, 'IPC::Shareable', {%wanted, create => 0, destroy => 0} or die "tie in a child: $!";
        for (1 .. 10) {
            $own->lock(LOCK_EX) or die "lock: $!";
            $own{count}++;
            $own{"last$number"} = $_;
            $own->unlock or die "unlock: $!";
        }
        exit 0;
    }
    push @children, $child;
}
for (@children) { waitpid $_, 0; print "a child ends with $?\n" }
print "$_ $shared{$_}\n" for grep { !ref $shared{$_} } sort keys %shared;
print "names $_ $shared{names}{$_}\n" for sort keys %{$shared{names}};
(tied %shared)->clean_up_all;
print eval { tie my %late, 'IPC::Shareable', {%wanted, create => 0} } ? "it is there\n" : "it is gone\n";
