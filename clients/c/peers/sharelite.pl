# Processes that share one text by IPC::ShareLite: a segment for each piece of it, and a set of semaphores as its lock.
use strict;
use warnings;
use Fcntl qw(LOCK_EX LOCK_UN);
use IPC::ShareLite;
use POSIX ();

$| = 1;
my %wanted = (-key => 0x69706354, -size => 4096, -mode => 0600);
my $shared = IPC::ShareLite->new(%wanted, -create => 'yes', -exclusive => 'yes', -destroy => 'yes') or die "new: $!";
printf "version %d, segments %d\n", $shared->version, $shared->num_segments;
$shared->store(0);

my @children;
for (1 .. 3) {
    my $child = fork // die "fork: $!";
    if ($child == 0) {
        my $own = IPC::ShareLite->new(%wanted, -create => 'no', -destroy => 'no') or die "new in a child: $!";
        for (1 .. 10) {
            $own->lock(LOCK_EX) or die "lock: $!";
            $own->store($own->fetch + 1);
            $own->unlock or die "unlock: $!";
        }
        # An exit would destroy what the parent has made.
        POSIX::_exit(0);
    }
    push @children, $child;
}
for (@children) { waitpid $_, 0; print "a child ends with $?\n" }
print "counted ", $shared->fetch, "\n";

# More than a segment has.
my $long = join ',', 1 .. 3000;
$shared->store($long);
print $shared->fetch eq $long ? "the same" : "another", ", segments ", $shared->num_segments, "\n";
$shared->store("short");
print $shared->fetch, ", segments ", $shared->num_segments, "\n";
undef $shared;
print eval { IPC::ShareLite->new(%wanted, -create => 'no') } ? "it is there\n" : "it is gone\n";
