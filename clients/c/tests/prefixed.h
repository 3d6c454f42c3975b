// Makes a test of the calls of the C library one of those of libipcd: their names get its prefix.
#ifndef IPCD_TESTS_PREFIXED_H
#define IPCD_TESTS_PREFIXED_H

#define _GNU_SOURCE
#include <fcntl.h>
#include <mqueue.h>
#include <semaphore.h>
#include <sys/msg.h>
#include <sys/sem.h>
#include <sys/shm.h>

#include "../ipcd.h"

#define PREFIXED 1
#define msgget ipcd_msgget
#define msgsnd ipcd_msgsnd
#define msgrcv ipcd_msgrcv
#define msgctl ipcd_msgctl
#define semget ipcd_semget
#define semop ipcd_semop
#define semtimedop ipcd_semtimedop
#define semctl ipcd_semctl
#define shmget ipcd_shmget
#define shmctl ipcd_shmctl
#define shmat ipcd_shmat
#define shmdt ipcd_shmdt
#define mq_open ipcd_mq_open
#define mq_close ipcd_mq_close
#define mq_unlink ipcd_mq_unlink
#define mq_send ipcd_mq_send
#define mq_timedsend ipcd_mq_timedsend
#define mq_receive ipcd_mq_receive
#define mq_timedreceive ipcd_mq_timedreceive
#define mq_getattr ipcd_mq_getattr
#define mq_setattr ipcd_mq_setattr
#define mq_notify ipcd_mq_notify
#define sem_open ipcd_sem_open
#define sem_close ipcd_sem_close
#define sem_unlink ipcd_sem_unlink
#define sem_wait ipcd_sem_wait
#define sem_trywait ipcd_sem_trywait
#define sem_timedwait ipcd_sem_timedwait
#define sem_clockwait ipcd_sem_clockwait
#define sem_post ipcd_sem_post
#define sem_getvalue ipcd_sem_getvalue

#endif
