//! A trial in words, so that it can be tried by hand.

use super::{Asked, AskedOfBytes, Trial};
use std::fmt;

impl fmt::Display for Trial {
    fn fmt(&self, f: &mut fmt::Formatter<'_>) -> fmt::Result {
        match self {
            Trial::Lists(scene, asked) => {
                writeln!(f, "corners {:?}", scene.plan.corners)?;
                writeln!(f, "cells {:?}", scene.plan.cells)?;
                writeln!(f, "kind {}", scene.plan.kind)?;
                writeln!(f, "doors {:?}", scene.plan.doors)?;
                writeln!(f, "setting {:#x}", scene.setting)?;
                if matches!(asked, Asked::ListStands { .. } | Asked::EitherKind { .. }) {
                    writeln!(f, "stands {:?}", scene.stands)?;
                }
                if !matches!(asked, Asked::ListStands { .. }) {
                    writeln!(f, "stand {:?}", scene.stand)?;
                }
                if !matches!(
                    asked,
                    Asked::Check | Asked::Write { .. } | Asked::Find | Asked::RoundTrip
                ) {
                    writeln!(f, "reach {:?}", scene.reach)?;
                }
                match *asked {
                    Asked::List { ceiling, .. } => {
                        writeln!(f, "ceiling {:?}", scene.listing(ceiling).ceiling)?;
                    }
                    Asked::ListStands { ceiling, .. } => {
                        writeln!(f, "ceiling {:?}", scene.morning(ceiling).ceiling)?;
                    }
                    Asked::EitherKind { ceiling, .. } => writeln!(
                        f,
                        "ceilings of the stand {:?}, of the stands {:?}",
                        scene.listing(ceiling).ceiling,
                        scene.morning(ceiling).ceiling
                    )?,
                    _ => {}
                }
                if matches!(
                    asked,
                    Asked::Change { .. } | Asked::EitherKind { .. } | Asked::Demand3
                ) {
                    writeln!(f, "door {}", scene.door)?;
                }
                write!(f, "asked {asked:?}")
            }
            Trial::Bytes(bytes, asked) => {
                let hex: Vec<String> = bytes.iter().map(|byte| format!("{byte:02x}")).collect();
                writeln!(f, "{} bytes: {}", bytes.len(), hex.join(" "))?;
                match asked {
                    AskedOfBytes::Read { lists } => write!(f, "asked to read into {lists:?}"),
                    AskedOfBytes::Print => write!(f, "asked to print"),
                }
            }
        }
    }
}
