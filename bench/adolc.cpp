// The program `edges` in doubles by ADOL-C: its recording, and its reverse sweep. Prints both in milliseconds of processor time, and the weighted
// sum of the adjoint of u.
#include <adolc/adolc.h>
#include <cstdio>
#include <cstdlib>
#include <ctime>
#include <vector>

static double milliseconds() {
    timespec now;
    clock_gettime(CLOCK_PROCESS_CPUTIME_ID, &now);
    return 1e3 * now.tv_sec + 1e-6 * now.tv_nsec;
}

int main(int argc, char **argv) {
    const int m = argc > 1 ? std::atoi(argv[1]) : 100000, n = m / 2 + 2, q = 2;
    std::vector<int> a(m + 1), b(m + 1);
    for (int e = 1; e <= m; e++) {
        a[e] = (7 * e) % n;
        b[e] = (11 * e + 3) % n;
    }
    std::vector<double> start(n), end(n), weights(n), adjoints(n);
    for (int i = 0; i < n; i++) {
        start[i] = 1 + (i + 1) % 5;
        weights[i] = i + 1;
    }
    // all in buffers of the process, so that nothing goes to files
    const unsigned words = 1u << 23;
    const double begun = milliseconds();
    {
        std::vector<adouble> u(n), r(n);
        trace_on(1, 1, words, words, words, words);
        for (int i = 0; i < n; i++) {
            u[i] <<= start[i];
            r[i] = 0;
        }
        for (int t = 0; t < q; t++) {
            for (int e = 1; e <= m; e++) {
                adouble d = u[a[e]] * u[b[e]];
                r[a[e]] += d;
                r[b[e]] -= d;
            }
            for (int i = 0; i < n; i++) u[i] += r[i];
        }
        for (int i = 0; i < n; i++) u[i] >>= end[i];
        trace_off();
    }
    const double recorded = milliseconds();
    fos_reverse(1, n, n, weights.data(), adjoints.data());
    const double reversed = milliseconds();
    double fold = 0;
    for (int i = 0; i < n; i++) fold += (i + 1) * adjoints[i];
    std::printf("%.3f %.3f %.17g\n", recorded - begun, reversed - recorded, fold);
}
