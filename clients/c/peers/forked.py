"""What Python's multiprocessing does with forked processes: it unlinks each semaphore as it is made, and then forks."""

import multiprocessing
import sys
from concurrent.futures import ProcessPoolExecutor


def square(number):
    return number * number


def count(lock, value, times):
    for _ in range(times):
        with lock:
            value.value += 1


def put(queue, number):
    queue.put(number)


def each(target, many):
    processes = [fork.Process(target=target, args=arguments) for arguments in many]
    for process in processes:
        process.start()
    for process in processes:
        process.join()


fork = multiprocessing.get_context("fork")
with fork.Pool(3) as pool:
    print("Pool.map", pool.map(square, range(20)))
with ProcessPoolExecutor(3, mp_context=fork) as executor:
    print("ProcessPoolExecutor.map", list(executor.map(square, range(20))))
lock, total = fork.Lock(), fork.Value("i", 0, lock=False)
each(count, [(lock, total, 100)] * 4)
print("Lock", total.value)
queue = fork.Queue()
each(put, [(queue, number) for number in range(5)])
print("Queue", sorted(queue.get(timeout=60) for _ in range(5)))
bounded = fork.BoundedSemaphore(2)
print("BoundedSemaphore", bounded.acquire(), bounded.acquire(), bounded.acquire(timeout=0.1))
bounded.release(), bounded.release()
try:
    bounded.release()
except ValueError as error:
    print("BoundedSemaphore", error)
print("Lock", all(it.acquire() for it in [fork.Lock() for _ in range(100)]))
sys.stdout.flush()
