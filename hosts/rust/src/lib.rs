//! The gateway's ordinary-Rust side: `ordinary` has the five calls by document 01 without any proof, `sample` makes files,
//! `damage` spoils them, `calendar` spells their days and `kana` their kana names, `division` has inputs for cutting and
//! joining, `runs` their runs of used IDs, `sets` pieces for the search of piece k, `library` has the replies of the proved
//! static library, `comparison` compares the two, `timing` measures. The programs `bench` and `compare` use all of them.

#![forbid(unsafe_code)]
// Days are written YYYY_MM_DD.
#![allow(clippy::inconsistent_digit_grouping)]

pub mod calendar;
pub mod comparison;
pub mod damage;
pub mod division;
pub mod faults;
pub mod kana;
pub mod library;
pub mod ordinary;
pub mod random;
pub mod runs;
pub mod sample;
pub mod sets;
pub mod timing;
pub mod trial;
