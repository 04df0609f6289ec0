//! Values as numbers, in JSON: without the feature for people where that is off.
#![cfg(not(feature = "serde-human-readable"))]

use std::fmt::Debug;

use serde::Serialize;
use serde::de::DeserializeOwned;
use time::macros::{date, datetime, offset, time, timestamp, utc_datetime};
use time::{Date, Duration, Month, Weekday};

fn is_written<T: Serialize + DeserializeOwned + PartialEq + Debug>(value: T, numbers: &str) {
    assert_eq!(serde_json::to_string(&value).unwrap(), numbers);
    assert_eq!(serde_json::from_str::<T>(numbers).unwrap(), value);
}

#[test]
fn values_have_numbers() {
    is_written(date!(2024 - 02 - 29), "[2024,60]");
    is_written(time!(1:02:03.5), "[1,2,3,500000000]");
    is_written(offset!(-1:30), "[-1,-30,0]");
    is_written(datetime!(2024-02-29 1:02:03), "[2024,60,1,2,3,0]");
    is_written(utc_datetime!(2024-02-29 1:02:03), "[2024,60,1,2,3,0]");
    is_written(datetime!(2024-02-29 1:02:03 +1:30), "[2024,60,1,2,3,0,1,30,0]");
    is_written(timestamp!(-0.5), "[-1,500000000]");
    is_written(Duration::new(-1, -5), "[-1,-5]");
    is_written(Month::May, "5");
    is_written(Weekday::Sunday, "7");
    assert!(serde_json::from_str::<Date>("\"2024-02-29\"").is_err());
    assert!(serde_json::from_str::<Month>("\"May\"").is_err());
}
