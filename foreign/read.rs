//! Reads a ship: read FILE. Prints a line for each field.
#[path = "../crates/harbour_c/harbour.rs"]
mod harbour;

use harbour::{Error, Owner, Pos, Ship};
use std::fmt::Display;

fn put<T: Display>(field: &str, items: impl IntoIterator<Item = Result<T, Error>>) -> Result<(), Error> {
    print!("{field}");
    for item in items {
        print!(" {}", item?);
    }
    println!();
    Ok(())
}

fn place(pos: Pos) -> (i32, i32, i16) {
    (pos.lat, pos.lon, pos.alt)
}

fn put_numbers(ship: Ship<'_>) -> Result<(), Error> {
    println!("name {}", ship.name()?);
    println!("hull {}", ship.hull()?);
    println!("kind {}", ship.kind()?.0);
    println!("level {}", ship.level()?.0);
    println!("needs {}", ship.needs()?.0);
    if let Some(home) = ship.home()? {
        let (lat, lon, alt) = place(home);
        println!("home {lat} {lon} {alt}");
    }
    println!("heat {}", ship.heat()?);
    println!("depth {}", ship.depth()?);
    println!("open {}", ship.open()? as u8);
    println!("shut {}", ship.shut()? as u8);
    if let Some(maybe) = ship.maybe()? {
        println!("maybe {maybe}");
    }
    Ok(())
}

fn put_lists(ship: Ship<'_>) -> Result<(), Error> {
    if let Some(cargo) = ship.cargo()? {
        put("cargo", cargo)?;
    }
    if let Some(track) = ship.track()? {
        put("track", track.iter().map(|pos| {
            let (lat, lon, alt) = place(pos?);
            Ok(format!("{lat},{lon},{alt}"))
        }))?;
    }
    if let Some(photo) = ship.photo()? {
        put("photo", photo.iter().map(Ok))?;
    }
    if let Some(names) = ship.names()? {
        put("names", names.iter().map(|name| Ok(format!("[{}]", name?))))?;
    }
    if let Some(mate) = ship.mate()? {
        let maybe = if mate.maybe()?.is_some() { "there" } else { "absent" };
        println!("mate {}, whose maybe is {maybe}", mate.name()?);
    }
    if let Some(consorts) = ship.consorts()? {
        put("consorts", consorts.iter().map(|ship| {
            let ship = ship?;
            Ok(format!("{} {}", ship.name()?, ship.hull()?))
        }))?;
    }
    if let Some(kinds) = ship.kinds()? {
        put("kinds", kinds.iter().map(|kind| Ok(kind?.0)))?;
    }
    Ok(())
}

fn put_union_and_rest(ship: Ship<'_>) -> Result<(), Error> {
    match ship.owner()? {
        Some(Owner::Person(person)) => println!("owner 1 {} {}", person.name()?, person.age()?),
        other => println!("owner {other:?}"),
    }
    if ship.shares()?.is_empty() {
        println!("shares absent");
    }
    println!("tall {}", ship.tall()?);
    if let Some(temps) = ship.temps()? {
        put("temps", temps)?;
    }
    if let Some(deltas) = ship.deltas()? {
        put("deltas", deltas)?;
    }
    let fix = ship.fix()?;
    let (lat, lon, alt) = place(fix.at);
    println!("fix {} {lat} {lon} {alt} {}", fix.when, fix.kind.0);
    if let Some(which) = ship.which()? {
        println!("which {}", which.0);
    }
    if let Some(flags) = ship.flags()? {
        put("flags", flags.iter().map(|flag| Ok(flag? as u8)))?;
    }
    Ok(())
}

fn main() -> Result<(), Error> {
    let buffer = std::fs::read(std::env::args().nth(1).unwrap()).unwrap();
    let ship = harbour::root(&buffer);
    put_numbers(ship)?;
    put_lists(ship)?;
    put_union_and_rest(ship)
}
