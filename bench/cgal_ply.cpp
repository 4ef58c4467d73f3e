// CGAL's reader and writer of binary PLY: cgal_ply FILE OUT reads a file, writes it again, and prints the processor time of both in milliseconds, without
// that of the disk.
#include <CGAL/IO/PLY.h>
#include <CGAL/Simple_cartesian.h>
#include <cstdio>
#include <ctime>
#include <fstream>
#include <sstream>
#include <vector>

// The milliseconds that this thread has had a processor.
static double now() {
    timespec t;
    clock_gettime(CLOCK_THREAD_CPUTIME_ID, &t);
    return t.tv_sec * 1e3 + t.tv_nsec * 1e-6;
}

int main(int count, char **words) {
    std::vector<CGAL::Simple_cartesian<double>::Point_3> points;
    std::vector<std::vector<std::size_t>> faces;
    std::stringstream in, out;
    if (count != 3)
        return 2;
    in << std::ifstream(words[1], std::ios::binary).rdbuf();
    double begin = now();
    if (!CGAL::IO::read_PLY(in, points, faces))
        return 1;
    double middle = now();
    CGAL::IO::set_binary_mode(out);
    if (!CGAL::IO::write_PLY(out, points, faces))
        return 1;
    std::printf("%.3f %.3f\n", middle - begin, now() - middle);
    std::ofstream file(words[2], std::ios::binary);
    file << out.rdbuf();
    file.close();
    return file ? 0 : 1;
}
