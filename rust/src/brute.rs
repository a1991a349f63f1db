//! What the documents' words say of cells and rays, by brute force over all the lines of
//! a plan. The paper program has none of it: the tests hold it to this.

/// A point, or a way from one to another.
pub type Spot = [i128; 2];

pub fn minus(a: Spot, b: Spot) -> Spot {
    [a[0] - b[0], a[1] - b[1]]
}

pub fn cross(a: Spot, b: Spot) -> i128 {
    a[0] * b[1] - a[1] * b[0]
}

pub fn dot(a: Spot, b: Spot) -> i128 {
    a[0] * b[0] + a[1] * b[1]
}

/// Whether two cells, each given by the ends of its sides, have a point strictly inside
/// both: no side of either has all corners of the other on it or beyond it.
pub fn overlap(a: &[[Spot; 2]], b: &[[Spot; 2]]) -> bool {
    let parts = |a: &[[Spot; 2]], b: &[[Spot; 2]]| {
        a.iter().any(|&[from, to]| {
            let value = |at| cross(minus(to, from), minus(at, from));
            b.iter().all(|&[at, _]| value(at) <= 0)
        })
    };
    !parts(a, b) && !parts(b, a)
}

/// The face of the first line that a ray from the stand meets, of all these lines, whose
/// ends are seen from there: none is looked for cell by cell.
pub fn first_met(lines: &[(u16, [Spot; 2])], d: Spot) -> Option<u16> {
    let mut first: Option<(i128, i128, u16)> = None;
    for &(face, [a, b]) in lines {
        if cross(a, d) > 0 && cross(d, b) > 0 && cross(a, b) > 0 {
            // It is met at far/fast of the direction.
            let (far, fast) = (cross(a, b), cross(d, minus(b, a)));
            if first.is_none_or(|(other, pace, _)| far * pace < other * fast) {
                first = Some((far, fast, face));
            }
        }
    }
    first.map(|(_, _, face)| face)
}
