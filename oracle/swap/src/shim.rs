// A child module of each copy: a mesh for the original's own call, which else reads it from a GLB file.

/// Both files of a mesh, nine numbers a triangle, by the two texts of kernels.
pub fn mascon(
    mesh: &[[f64; 9]],
    cauchy_toml: &str,
    elliptic_toml: &str,
) -> Result<(Vec<u8>, Vec<u8>), String> {
    let triangles = mesh.iter().map(|&[ax, ay, az, bx, by, bz, cx, cy, cz]| {
        super::make_triangle([ax, ay, az], [bx, by, bz], [cx, cy, cz])
    });
    let triangles = triangles.collect();
    super::RuntimeSource { triangles }.mascon(cauchy_toml, elliptic_toml)
}
