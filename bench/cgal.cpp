// CGAL's repair of a polygon soup on an OFF file: cgal FILE prints the processor time in milliseconds, without reading.
#include <CGAL/Exact_predicates_inexact_constructions_kernel.h>
#include <CGAL/IO/OFF.h>
#include <CGAL/Polygon_mesh_processing/orient_polygon_soup.h>
#include <CGAL/Polygon_mesh_processing/repair_polygon_soup.h>
#include <cstdio>
#include <ctime>
#include <vector>

int main(int count, char **words) {
    typedef CGAL::Exact_predicates_inexact_constructions_kernel Kernel;
    std::vector<Kernel::Point_3> points;
    std::vector<std::vector<std::size_t>> faces;
    if (count != 2 || !CGAL::IO::read_OFF(words[1], points, faces))
        return 1;
    std::clock_t begin = std::clock();
    CGAL::Polygon_mesh_processing::repair_polygon_soup(points, faces);
    CGAL::Polygon_mesh_processing::orient_polygon_soup(points, faces);
    std::printf("%zu points, %zu faces, milliseconds %.3f\n", points.size(), faces.size(), (std::clock() - begin) * 1000.0 / CLOCKS_PER_SEC);
    return 0;
}
