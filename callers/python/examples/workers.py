"""A fan-out of workers: three threads sleep at one portal, and whoever slept longest gets the next job."""
import threading

from ipcz_portals import Loop, Portal


def work(jobs: Portal) -> None:
    """Takes jobs until no more can come."""
    for job in jobs:
        jobs.send(b"%d" % (int(job.bytes) ** 2))


with Loop(2) as loop:
    workers = [threading.Thread(target=work, args=[loop.node(1).first(0)]) for _ in range(3)]
    for worker in workers:
        worker.start()
    jobs = loop.node(0).first(1)
    for job in range(1, 101):
        jobs.send(b"%d" % job)
    squares = [int(jobs.recv().bytes) for _ in range(100)]
    print(f"{len(squares)} jobs, the squares add up to {sum(squares)}")
    jobs.close()
    for worker in workers:
        worker.join()
