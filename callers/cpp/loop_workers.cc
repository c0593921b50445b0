// A fan-out of workers, as callers/c/loop_workers.c: three threads sleep at one portal, and whoever slept longest gets the next job.
#include "ipcz_loop.hpp"

#include <array>
#include <iostream>
#include <thread>

using Loop = ipcz::Loop;

// Takes jobs until no more can come.
static void work(Loop::Node node) {
    Loop::Portal jobs = node.first(0);
    Loop::Parcel job;
    while (jobs.recv(job) == ipcz::Got::parcel) {
        const int number = std::stoi(job.bytes);
        jobs.send(std::to_string(number * number));
    }
}

int main() {
    Loop loop(2);
    std::array<std::thread, 3> workers;
    for (std::thread &worker : workers) worker = std::thread(work, loop.node(1));
    Loop::Portal jobs = loop.node(0).first(1);
    Loop::Parcel square;
    int done = 0, sum = 0;
    for (int job = 1; job <= 100; job++) jobs.send(std::to_string(job));
    for (; done < 100 && jobs.recv(square) == ipcz::Got::parcel; done++) sum += std::stoi(square.bytes);
    std::cout << done << " jobs, the squares add up to " << sum << "\n";
    jobs.close();
    for (std::thread &worker : workers) worker.join();
}
