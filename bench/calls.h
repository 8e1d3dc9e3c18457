/* The calls of a made-up run of a program that logs. The same seed and number of writers give the same calls. */

enum { MESSAGES = 4 };

/* The arguments are numbers; that of `queue %s` is the digit behind `q`. Message 3 takes no second one. */
struct call {
    unsigned long long stamp, second;
    unsigned writer, id, first;
};

struct run {
    unsigned long long state, stamp;
    unsigned writers, next;
};

static unsigned draw(struct run *run, unsigned below) {
    run->state = (run->state * 1103515245 + 12345) % 2147483648u;
    return (unsigned)(run->state / 65536 % below);
}

static struct run start(unsigned long long seed, unsigned writers) {
    return (struct run){seed % 2147483648u, 1000, writers, 0};
}

static struct call next_call(struct run *run) {
    struct call call = {.writer = run->next++ % run->writers, .id = draw(run, MESSAGES)};
    call.stamp = run->stamp += draw(run, 100);
    if (call.id == 0) {
        call.first = draw(run, 32768);
        call.second = draw(run, 32768) * 65536ull;
    } else if (call.id == 1) {
        call.first = draw(run, 8);
        call.second = draw(run, 101);
    } else if (call.id == 2) {
        call.first = draw(run, 32768);
        call.second = draw(run, 32768);
    } else {
        call.first = 33 + draw(run, 94);
    }
    return call;
}
