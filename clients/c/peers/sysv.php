<?php
// What php's sysvmsg and sysvsem answer: each function.
error_reporting(0);

function told(string $what, ...$values): void
{
    print($what . ": " . json_encode($values) . "\n");
}

$key = 0x69706362;
told("exists", msg_queue_exists($key));
$queue = msg_get_queue($key, 0600);
told("exists", msg_queue_exists($key));
told("send", msg_send($queue, 3, ["a" => [1, 2]]), msg_send($queue, 1, "plain", false), msg_send($queue, 2, 4.5));
$stat = msg_stat_queue($queue);
told("stat", $stat["msg_qnum"], $stat["msg_lspid"] == getmypid(), $stat["msg_lrpid"]);
told("new qbytes", $stat["msg_qbytes"]);
told("users", $stat["msg_perm.uid"] == posix_geteuid(), $stat["msg_perm.mode"], abs($stat["msg_stime"] - time()) < 5);
$type = $message = $error = null;
told("receive", msg_receive($queue, -2, $type, 100, $message, false), $type, $message);
told("receive", msg_receive($queue, 3, $type, 100, $message), $type, $message);
told("short", msg_receive($queue, 0, $type, 2, $message, true, MSG_IPC_NOWAIT, $error), $error);
told("except", msg_receive($queue, 2, $type, 100, $message, true, MSG_IPC_NOWAIT | MSG_EXCEPT, $error), $error);
told("receive", msg_receive($queue, 0, $type, 100, $message), $type, $message);
told("none", msg_receive($queue, 0, $type, 100, $message, true, MSG_IPC_NOWAIT, $error), $error);
told("set", msg_set_queue($queue, ["msg_qbytes" => 20, "msg_perm.mode" => 0640]));
$stat = msg_stat_queue($queue);
told("stat", $stat["msg_qbytes"], $stat["msg_perm.mode"]);
told("full", msg_send($queue, 1, str_repeat("x", 30), false, false, $error), $error);
told("remove", msg_remove_queue($queue), msg_queue_exists($key));

$set = sem_get($key, 2, 0600, true);
told("acquire", sem_acquire($set), sem_acquire($set, true), sem_acquire($set, true));
told("release", sem_release($set), sem_acquire($set, true), sem_release($set), sem_release($set));
$child = pcntl_fork();
if ($child === 0) {
    sem_acquire(sem_get($key, 2, 0600, true));
    exit(0);
}
pcntl_waitpid($child, $status);
// Its adjustments are added at its end, on a server a moment after it.
$first = sem_acquire($set, true);
for ($i = 0; $i < 3000 && !($second = sem_acquire($set, true)); $i++) {
    usleep(10000);
}
told("after a child", $first, $second, sem_acquire($set, true));
told("remove", sem_remove($set), sem_remove($set));
