//! The tool, run as a person would: temporary folders, exit codes, messages, JSON, locks, damage and crashes.

mod bench;
mod crash;
mod damage;
mod edges;
mod hints;
mod json;
mod kiosk;
mod layers;
mod manual;
mod many;
mod person;
mod read_only;
mod safety;
mod salvage;
mod shapes;
mod show;
mod transfer;
mod whole;
