//! The entries beside Boost's and GSL's, where bench/run found them. Arguments are moderate.

use crate::clock::Row;
use crate::entries::value;
use crate::inputs::{many, moderate};
use crate::symbols;

type Peer<const N: usize> = fn([f64; N]) -> f64;

struct Library {
    name: &'static str,
    rc: Peer<2>,
    rf: Peer<3>,
    rd: Peer<3>,
    rg: Option<Peer<3>>,
    rj: Peer<4>,
}

#[cfg(feature = "peer-boost")]
fn boost() -> Option<Library> {
    extern "C" {
        fn boost_rc(x: f64, y: f64) -> f64;
        fn boost_rf(x: f64, y: f64, z: f64) -> f64;
        fn boost_rd(x: f64, y: f64, z: f64) -> f64;
        fn boost_rg(x: f64, y: f64, z: f64) -> f64;
        fn boost_rj(x: f64, y: f64, z: f64, p: f64) -> f64;
    }
    Some(Library {
        name: "Boost",
        rc: |[x, y]| unsafe { boost_rc(x, y) },
        rf: |[x, y, z]| unsafe { boost_rf(x, y, z) },
        rd: |[x, y, z]| unsafe { boost_rd(x, y, z) },
        rg: Some(|[x, y, z]| unsafe { boost_rg(x, y, z) }),
        rj: |[x, y, z, p]| unsafe { boost_rj(x, y, z, p) },
    })
}

#[cfg(not(feature = "peer-boost"))]
fn boost() -> Option<Library> {
    None
}

/// GSL has no RG. Its mode 0 is double precision.
#[cfg(feature = "peer-gsl")]
fn gsl() -> Option<Library> {
    extern "C" {
        fn gsl_sf_ellint_RC(x: f64, y: f64, mode: u32) -> f64;
        fn gsl_sf_ellint_RF(x: f64, y: f64, z: f64, mode: u32) -> f64;
        fn gsl_sf_ellint_RD(x: f64, y: f64, z: f64, mode: u32) -> f64;
        fn gsl_sf_ellint_RJ(x: f64, y: f64, z: f64, p: f64, mode: u32) -> f64;
    }
    Some(Library {
        name: "GSL",
        rc: |[x, y]| unsafe { gsl_sf_ellint_RC(x, y, 0) },
        rf: |[x, y, z]| unsafe { gsl_sf_ellint_RF(x, y, z, 0) },
        rd: |[x, y, z]| unsafe { gsl_sf_ellint_RD(x, y, z, 0) },
        rg: None,
        rj: |[x, y, z, p]| unsafe { gsl_sf_ellint_RJ(x, y, z, p, 0) },
    })
}

#[cfg(not(feature = "peer-gsl"))]
fn gsl() -> Option<Library> {
    None
}

pub fn rows() -> Vec<Row> {
    boost().into_iter().chain(gsl()).flat_map(beside).collect()
}

fn beside(library: Library) -> Vec<Row> {
    let name = |entry: &str| format!("{entry}, beside {}", library.name);
    let two = symbols::RC.map(|f| move |[x, y]: [f64; 2]| value(|v, n, r, s| unsafe { f(x, y, v, n, r, s) }));
    let mut rows = vec![Row::new(&name("RC"), many(|r| [moderate(r), moderate(r)]), two, library.rc)];
    for (entry, symbol, peer) in [("RF", symbols::RF, Some(library.rf)), ("RD", symbols::RD, Some(library.rd)), ("RG", symbols::RG, library.rg)] {
        let ours = symbol.map(|f| move |[x, y, z]: [f64; 3]| value(|v, n, r, s| unsafe { f(x, y, z, v, n, r, s) }));
        rows.extend(peer.map(|peer| Row::new(&name(entry), many(|r| [moderate(r), moderate(r), moderate(r)]), ours, peer)));
    }
    let four = symbols::RJ_POSITIVE.map(|f| move |[x, y, z, p]: [f64; 4]| value(|v, n, r, s| unsafe { f(x, y, z, p, v, n, r, s) }));
    rows.push(Row::new(&name("RJ"), many(|r| [moderate(r), moderate(r), moderate(r), moderate(r)]), four, library.rj));
    rows
}
