//! From a case that differs to the smallest one found that still does.

use crate::case::{Case, EXACT, Room};
use crate::pack;
use crate::ply::Parts;
use std::time::{Duration, Instant};

/// How long is searched at most: long enough for a slow machine that does much else.
const LONGEST: Duration = Duration::from_secs(200);

struct Search<'a> {
    case: Case,
    differs: &'a dyn Fn(&Case) -> bool,
    end: Instant,
}

/// The smallest case found.
pub fn smallest(case: &Case, differs: &dyn Fn(&Case) -> bool) -> Case {
    let mut search = Search { case: case.clone(), differs, end: Instant::now() + LONGEST };
    while search.meshes()
        | search.faces()
        | search.tails()
        | search.points()
        | search.settings()
        | search.patches()
        | search.counts()
        | search.file()
        | search.rooms()
        | search.corners()
        | search.coordinates()
    {}
    search.case
}

/// The parts of a PLY file, or none if it is not of the form.
fn of(case: &Case) -> Parts {
    Parts::of(&case.file).unwrap_or_default()
}

/// Changes the parts of a PLY file.
fn part(case: &mut Case, change: impl FnOnce(&mut Parts)) {
    let mut parts = of(case);
    change(&mut parts);
    case.file = parts.file();
}

impl Search<'_> {
    /// Whether the case still differs after a change; then the change is kept.
    fn stays(&mut self, change: impl FnOnce(&mut Case)) -> bool {
        if Instant::now() > self.end {
            return false;
        }
        let mut other = self.case.clone();
        change(&mut other);
        let still = (self.differs)(&other);
        if still {
            self.case = other;
        }
        still
    }

    /// Meshes of a pack left out, many at a time and then one, and each that stays made smaller by itself; then its rows.
    fn meshes(&mut self) -> bool {
        let mut found = self.without(pack::count, pack::leave);
        for k in 0..pack::count(&self.case) {
            let (whole, differs, end) = (self.case.clone(), self.differs, self.end);
            let with = |mesh: &Case| pack::with(&whole, k, mesh);
            let mut search = Search { case: pack::meshes(&whole).swap_remove(k), differs: &|mesh| differs(&with(mesh)), end };
            if search.faces() | search.points() | search.corners() | search.coordinates() {
                self.case = with(&search.case);
                found = true;
            }
        }
        found | self.rows()
    }

    /// Counts of a pack that are lower, or left out at the end of a row.
    fn rows(&mut self) -> bool {
        let rows: [fn(&mut Case) -> &mut Vec<u32>; 2] = [|c| &mut c.point_counts, |c| &mut c.face_counts];
        let mut found = false;
        for row in rows {
            let length = row(&mut self.case).len();
            found |= length > 0 && self.stays(|c| row(c).truncate(length - 1));
            for i in 0..row(&mut self.case).len() {
                let now = row(&mut self.case)[i];
                found |= [0, 1, now / 2].into_iter().any(|n| n < now && self.stays(|c| row(c)[i] = n));
            }
        }
        found
    }

    /// Faces left out, many at a time and then one, with their labels.
    fn faces(&mut self) -> bool {
        let leave = |c: &mut Case, from: usize, to: usize| {
            c.faces.drain(3 * from..3 * to);
            c.labels.drain(from.min(c.labels.len())..to.min(c.labels.len()));
        };
        self.without(|c| c.faces.len() / 3, leave)
    }

    /// Entries that make no whole point or face, and labels beyond the faces.
    fn tails(&mut self) -> bool {
        let mut found = false;
        found |= self.case.points.len() % 3 != 0 && self.stays(|c| c.points.truncate(c.points.len() / 3 * 3));
        found |= self.case.faces.len() % 3 != 0 && self.stays(|c| c.faces.truncate(c.faces.len() / 3 * 3));
        let faces = self.case.f() as usize;
        found | (self.case.labels.len() > faces && self.stays(|c| c.labels.truncate(faces)))
    }

    /// Points left out, the corners behind them renumbered; the edge check's P lowered.
    fn points(&mut self) -> bool {
        let mut found = false;
        let mut size = self.case.points.len() / 3;
        while size > 0 {
            let mut end = self.case.points.len() / 3;
            while end >= size {
                let at = end - size;
                found |= self.stays(|c| {
                    c.points.drain(3 * at..3 * end);
                    c.faces.iter_mut().filter(|v| **v as usize >= at).for_each(|v| *v = v.saturating_sub(size as u32).max(at as u32));
                });
                end -= size;
            }
            size /= 2;
        }
        for p in [0, 1, self.case.point_count / 2, self.case.point_count.saturating_sub(1)] {
            found |= p < self.case.point_count && self.stays(|c| c.point_count = p);
        }
        found
    }

    /// Options without a bit, and plain thresholds.
    fn settings(&mut self) -> bool {
        let mut found = false;
        for bit in 0..32 {
            found |= self.case.options >> bit & 1 == 1 && self.stays(|c| c.options &= !(1 << bit));
        }
        found | self.simpler(&[0.0, 1.0, 0.5, 2f64.powi(-10)], |c| &mut c.threshold)
    }

    /// A float replaced by the first of `plain` that does, if it is not one of those before it.
    fn simpler(&mut self, plain: &[f64], at: impl Fn(&mut Case) -> &mut f64) -> bool {
        let now = at(&mut self.case).to_bits();
        let known = plain.iter().position(|x| x.to_bits() == now).unwrap_or(plain.len());
        plain[..known].iter().any(|&x| self.stays(|c| *at(c) = x))
    }

    /// A whole number replaced by the first smaller one of a few.
    fn lower(&mut self, at: impl Fn(&mut Case) -> &mut u64) -> bool {
        let now = *at(&mut self.case);
        [0, 1, 2, now / 2, now.saturating_sub(1)].into_iter().any(|n| n < now && self.stays(|c| *at(c) = n))
    }

    /// Labels 0, limits absent, fewer patches.
    fn patches(&mut self) -> bool {
        let mut found = false;
        for i in 0..self.case.labels.len() {
            found |= self.case.labels[i] != 0 && self.stays(|c| c.labels[i] = 0);
        }
        for limit in 0..5 {
            found |= self.case.filter.set >> limit & 1 == 1 && self.stays(|c| c.filter.set &= !(1 << limit));
        }
        for k in 0..3 {
            found |= self.simpler(&[0.0, 1.0, 0.5], |c| &mut c.filter.reals[k]);
        }
        found | self.lower(|c| &mut c.patch_count) | self.lower(|c| &mut c.filter.min_faces) | self.lower(|c| &mut c.filter.keep_largest_n)
    }

    /// Counts left out, or smaller.
    fn counts(&mut self) -> bool {
        let mut found = !self.case.counts.is_empty() && self.stays(|c| c.counts.truncate(c.counts.len() - 1));
        for i in 0..self.case.counts.len() {
            let now = self.case.counts[i];
            found |= [0, 1, now / 10].into_iter().any(|n| n < now && self.stays(|c| c.counts[i] = n));
        }
        found
    }

    /// A PLY file of the form with fewer faces and points, and with zeros for points; of another, without some of its bytes.
    fn file(&mut self) -> bool {
        if Parts::of(&self.case.file).is_none() {
            return self.without(|c| c.file.len(), |c, from, to| drop(c.file.drain(from..to)));
        }
        let mut found = self.without(|c| of(c).faces.len(), |c, from, to| part(c, |parts| drop(parts.faces.drain(from..to))));
        found |= self.without(|c| of(c).vertices.len(), |c, from, to| part(c, |parts| drop(parts.vertices.drain(from..to))));
        for i in 0..of(&self.case).vertices.len() {
            found |= of(&self.case).vertices[i] != [0; 24] && self.stays(|c| part(c, |parts| parts.vertices[i] = [0; 24]));
        }
        found
    }

    /// Things of a case left out, many at a time and then one: how many there are, and what leaves out those from one place up to another.
    fn without(&mut self, count: impl Fn(&Case) -> usize, leave: impl Fn(&mut Case, usize, usize)) -> bool {
        let (mut size, mut found) = (count(&self.case), false);
        while size > 0 {
            let mut start = 0;
            while start + size <= count(&self.case) {
                let gone = self.stays(|c| leave(c, start, start + size));
                found |= gone;
                start += if gone { 0 } else { size };
            }
            size /= 2;
        }
        found
    }

    /// Rooms clean, exact, or only one entry off. What is too large to be lent in full stays short.
    fn rooms(&mut self) -> bool {
        let mut found = false;
        for k in 0..self.case.rooms.len() {
            let Room { extra, most, dirt, front } = self.case.rooms[k];
            let whole = most == EXACT.most;
            found |= dirt != 0 && self.stays(|c| c.rooms[k].dirt = 0);
            found |= [0, 1, front / 2].into_iter().any(|n| n < front && self.stays(|c| c.rooms[k].front = n));
            if self.case.stated()[k].1 < 1 << 20 {
                found |= !whole && [0, -1].into_iter().any(|extra| self.stays(|c| c.rooms[k] = Room { extra, ..EXACT }));
                found |= whole && [0, extra.signum(), extra / 2].into_iter().any(|n| n.abs() < extra.abs() && self.stays(|c| c.rooms[k].extra = n));
            }
        }
        found
    }

    /// Corners with lower numbers.
    fn corners(&mut self) -> bool {
        let mut found = false;
        for i in 0..self.case.faces.len() {
            let now = self.case.faces[i];
            let p = self.case.p() as u32;
            found |= [0, 1, 2, 3, p].into_iter().any(|v| v < now && self.stays(|c| c.faces[i] = v));
        }
        found
    }

    /// Coordinates that are small whole numbers.
    fn coordinates(&mut self) -> bool {
        let mut found = false;
        for i in 0..self.case.points.len() {
            found |= self.simpler(&[0.0, 1.0, -1.0, 2.0, -2.0, 3.0, 0.5], |c| &mut c.points[i]);
            let whole = self.case.points[i].round();
            found |= whole.to_bits() != self.case.points[i].to_bits() && self.stays(|c| c.points[i] = whole);
        }
        found
    }
}
