// The side of CGAL: its corefinement, exact predicates and inexact constructions. Its meshes are built from the lists, and its result is
// written to lists that have the room already.
#include "sides.h"
#include <CGAL/Exact_predicates_inexact_constructions_kernel.h>
#include <CGAL/Polygon_mesh_processing/corefinement.h>
#include <CGAL/Surface_mesh.h>
#include <exception>

using Kernel = CGAL::Exact_predicates_inexact_constructions_kernel;
using Mesh = CGAL::Surface_mesh<Kernel::Point_3>;
namespace PMP = CGAL::Polygon_mesh_processing;

static void build(const Body &s, Mesh &mesh) {
    const size_t n = s.points.size() / 3, m = s.corners.size() / 3;
    mesh.reserve(n, n + m, m);
    for (size_t i = 0; i < n; i++) {
        mesh.add_vertex(Kernel::Point_3(s.points[3 * i], s.points[3 * i + 1], s.points[3 * i + 2]));
    }
    for (size_t f = 0; f < m; f++) {
        mesh.add_face(Mesh::Vertex_index(s.corners[3 * f]), Mesh::Vertex_index(s.corners[3 * f + 1]), Mesh::Vertex_index(s.corners[3 * f + 2]));
    }
}

static void write(const Mesh &mesh, Out &out) {
    std::vector<uint32_t> numbers(mesh.num_vertices());
    size_t n = 0, m = 0;
    for (auto v : mesh.vertices()) {
        const auto &p = mesh.point(v);
        out.points[3 * n] = p.x();
        out.points[3 * n + 1] = p.y();
        out.points[3 * n + 2] = p.z();
        numbers[v] = static_cast<uint32_t>(n++);
    }
    for (auto f : mesh.faces()) {
        size_t k = 0;
        for (auto v : vertices_around_face(mesh.halfedge(f), mesh)) {
            out.corners[3 * m + k++] = numbers[v];
        }
        m++;
    }
    out.vertices = n;
    out.triangles = m;
}

extern "C" __attribute__((noinline)) void measured_cgal(uint32_t code, const Body &a, const Body &b, Out &out) {
    out.made = false;
    out.vertices = 0;
    out.triangles = 0;
    try {
        Mesh ma, mb, mc;
        build(a, ma);
        build(b, mb);
        switch (code) {
        case 0: out.made = PMP::corefine_and_compute_union(ma, mb, mc); break;
        case 1: out.made = PMP::corefine_and_compute_intersection(ma, mb, mc); break;
        default: out.made = PMP::corefine_and_compute_difference(ma, mb, mc); break;
        }
        if (out.made) {
            write(mc, out);
        }
    } catch (const std::exception &) {
        out.made = false;
    }
}
