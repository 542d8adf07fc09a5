// The side of Manifold, with f64 coordinates. Its solids are built from the lists, and its result is written to lists that have the room
// already: it works a result out only when it is asked for.
#include "sides.h"
#include <exception>
#include <manifold/manifold.h>

using manifold::Manifold;
using manifold::MeshGL64;
using manifold::OpType;

static Manifold build(const Body &s) {
    MeshGL64 mesh;
    mesh.vertProperties = s.points;
    mesh.triVerts.assign(s.corners.begin(), s.corners.end());
    return Manifold(mesh);
}

extern "C" __attribute__((noinline)) void measured_manifold(uint32_t code, const Body &a, const Body &b, Out &out) {
    out.made = false;
    out.vertices = 0;
    out.triangles = 0;
    try {
        const OpType operations[3] = {OpType::Add, OpType::Intersect, OpType::Subtract};
        const Manifold made = build(a).Boolean(build(b), operations[code]);
        const MeshGL64 mesh = made.GetMeshGL64();
        out.made = made.Status() == Manifold::Error::NoError;
        if (out.made) {
            std::copy(mesh.vertProperties.begin(), mesh.vertProperties.end(), out.points.begin());
            std::copy(mesh.triVerts.begin(), mesh.triVerts.end(), out.corners.begin());
            out.vertices = mesh.NumVert();
            out.triangles = mesh.NumTri();
        }
    } catch (const std::exception &) {
        out.made = false;
    }
}
