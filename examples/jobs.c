/* Jobs that wait, run and are done: none gets lost. */
int main() {
    int jobs = input();
    assume(jobs >= 0 && jobs <= 1000);
    int waiting = jobs, running = 0, done = 0;
    while (waiting > 0 || running > 0) {
        if (waiting > 0 && input() > 0) {
            waiting--;
            running++;
        } else if (running > 0) {
            running--;
            done++;
        }
    }
    assert(done == jobs);
    return 0;
}
