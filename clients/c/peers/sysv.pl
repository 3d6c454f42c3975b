# What perl's IPC::SysV, IPC::Msg and IPC::Semaphore answer: each method, and perl's own calls.
use strict;
use warnings;
use IPC::SysV qw(IPC_CREAT IPC_EXCL IPC_NOWAIT IPC_PRIVATE SETVAL GETVAL S_IRUSR S_IWUSR SEM_UNDO ftok);
use IPC::Msg;
use IPC::Semaphore;

sub told {
    my ($what, @values) = @_;
    print "$what: ", join(" ", map { defined $_ ? $_ : "undef ($!)" } @values), "\n";
}

my $key = ftok($0, 7);
told("ftok", defined $key && $key != 0 ? "a key" : "none");
my $queue = IPC::Msg->new($key, IPC_CREAT | IPC_EXCL | 0600);
told("a second", IPC::Msg->new($key, IPC_CREAT | IPC_EXCL | 0600));
told("id", defined $queue->id && msgget($key, 0) == $queue->id);
for my $type (3, 1, 2) { told("snd $type", $queue->snd($type, "text $type", IPC_NOWAIT)); }
my $stat = $queue->stat;
told("stat", $stat->qnum, $stat->lspid == $$, $stat->lrpid, $stat->uid == $>, $stat->mode & 0777);
told("new qbytes", $stat->qbytes);
told("times", abs($stat->stime - time) < 5, $stat->rtime, abs($stat->ctime - time) < 5);
my $text;
told("rcv -9", $queue->rcv($text, 64, -9, IPC_NOWAIT), $text);
told("rcv 3", $queue->rcv($text, 64, 3), $text);
told("rcv short", $queue->rcv($text, 2, 0, IPC_NOWAIT));
told("rcv 7", $queue->rcv($text, 64, 7, IPC_NOWAIT));
told("set", $queue->set(qbytes => 10, mode => 0640));
told("snd full", $queue->snd(1, "too much for it", IPC_NOWAIT));
$stat = $queue->stat;
told("stat", $stat->qnum, $stat->qbytes, $stat->mode & 0777, $stat->lrpid == $$);
told("remove", $queue->remove);
told("stat", $queue->stat);
told("msgget", msgget($key, 0));

my $set = IPC::Semaphore->new(IPC_PRIVATE, 4, S_IRUSR | S_IWUSR | IPC_CREAT);
told("id", $set->id >= 0);
told("setall", $set->setall(1, 2, 3, 4));
told("getall", $set->getall);
told("setval", $set->setval(1, 40), $set->getval(1));
told("op", $set->op(0, -1, IPC_NOWAIT, 1, -39, 0, 2, 1, SEM_UNDO), $set->getall);
told("op at 0", $set->op(0, -1, IPC_NOWAIT));
told("op too great", $set->op(1, 32767, 0));
told("getpid", $set->getpid(0) == $$, $set->getncnt(0), $set->getzcnt(0));
$stat = $set->stat;
told("stat", $stat->nsems, $stat->uid == $>, $stat->mode & 0777, abs($stat->otime - time) < 5);
told("set", $set->set(mode => 0600));
my $child = fork;
if ($child == 0) { $set->op(0, -1, 0); exit 7; }
for (1 .. 3000) { last if $set->getncnt(0); select(undef, undef, undef, 0.01); }
told("getncnt", $set->getncnt(0));
told("op", $set->op(0, 1, 0));
waitpid($child, 0);
told("child", $? >> 8, $set->getval(0));
told("semctl", semctl($set->id, 3, SETVAL, 9), semctl($set->id, 3, GETVAL, 0));
told("remove", $set->remove);
told("getall", scalar $set->getall);
