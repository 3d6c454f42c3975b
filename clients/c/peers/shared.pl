# A segment of System V that several processes map, and count in under a lock, by the modules that come with perl.
use strict;
use warnings;
use IPC::Semaphore;
use IPC::SharedMem;
use IPC::SysV qw(IPC_CREAT IPC_EXCL SEM_UNDO);

$| = 1;
my ($key, $size) = (0x69706353, 10000);
my $segment = IPC::SharedMem->new($key, $size, IPC_CREAT | IPC_EXCL | 0600) or die "shmget: $!";
my $lock = IPC::Semaphore->new($key, 1, IPC_CREAT | 0600) or die "semget: $!";
$lock->setval(0, 1) or die "semctl: $!";
$segment->attach or die "shmat: $!";
printf "size %d, attached %d, by me %d\n", $segment->stat->segsz, $segment->stat->nattch,
    $segment->stat->cpid == $$ ? 1 : 0;
$segment->write(pack("N", 0), 0, 4) or die;

sub count {
    for (1 .. $_[0]) {
        $lock->op(0, -1, SEM_UNDO) or die "semop: $!";
        my $number = unpack "N", $segment->read(0, 4);
        $segment->write(pack("N", $number + 1), 0, 4);
        $lock->op(0, 1, SEM_UNDO) or die "semop: $!";
    }
}

my @children;
for (1 .. 3) {
    my $child = fork // die "fork: $!";
    if ($child == 0) { count(50); exit 0 }
    push @children, $child;
}
count(50);
for (@children) { waitpid $_, 0; print "a child ends with $?\n" }
print "counted ", unpack("N", $segment->read(0, 4)), "\n";

# The calls of perl itself, which attach and detach each time.
my $id = $segment->id;
shmwrite $id, "at the end", $size - 10, 10 or die "shmwrite: $!";
shmread $id, my $text, $size - 10, 10 or die "shmread: $!";
print "$text, ", $segment->read($size - 10, 10), "\n";
$segment->detach or die "shmdt: $!";
print "attached ", $segment->stat->nattch, "\n";
$segment->remove and $lock->remove or die "remove: $!";
print defined IPC::SharedMem->new($key, $size, 0) ? "it is there\n" : "it is gone\n";
