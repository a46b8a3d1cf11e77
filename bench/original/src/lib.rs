//! The workloads over the crate planus, exported for the harness (the same C ABI). Built twice: without caches, and with
//! the feature `caches`, which turns on planus's three. With no rounds a writer works once and answers a hash of all its bytes.
use core::mem::MaybeUninit;
use planus::table_reader::Table;
use planus::{Builder, SliceWithStartOffset, TableRead, UnionVector, Vector};

mod schema;
use schema::{Equipment, EquipmentRef, Monster, MonsterRef, Weapon, WeaponRef};

const CAPACITY: usize = 1 << 18;

unsafe fn slice<'a>(p: *const u8, n: usize) -> &'a [u8] {
    std::slice::from_raw_parts(p, n)
}

fn texts_of(data: &[u8], size: usize) -> Vec<&str> {
    data.chunks_exact(size).map(|c| std::str::from_utf8(c).unwrap()).collect()
}

fn texts_by<'a>(data: &'a [u8], lengths: &[u8]) -> Vec<&'a str> {
    let mut rest = data;
    let mut texts = Vec::new();
    for length in lengths {
        let (bytes, more) = rest.split_at(*length as usize);
        rest = more;
        texts.push(std::str::from_utf8(bytes).unwrap());
    }
    texts
}

fn numbers_of(data: &[u8]) -> Vec<u32> {
    data.chunks_exact(4).map(|c| u32::from_le_bytes(c.try_into().unwrap())).collect()
}

fn sum_of(bytes: &[u8], rounds: usize) -> u64 {
    if rounds == 0 {
        let mut hash = 0xcbf29ce484222325u64;
        for byte in bytes {
            hash = (hash ^ *byte as u64).wrapping_mul(0x100000001b3);
        }
        return hash;
    }
    (bytes.len() as u64).wrapping_add((bytes.first().copied().unwrap_or(0) as u64) << 32)
}

fn finished(builder: &mut Builder, rounds: usize) -> u64 {
    let end = builder.create_string("end").downcast(); // `finish` wants a sized kind
    sum_of(builder.finish(end, None), rounds)
}

/// Does the work so often, in one builder that is cleared.
fn reused(capacity: usize, rounds: usize, mut work: impl FnMut(&mut Builder) -> u64) -> u64 {
    let mut builder = Builder::with_capacity(capacity);
    let mut sum = 0u64;
    for _ in 0..rounds.max(1) {
        builder.clear();
        sum = sum.wrapping_add(work(&mut builder));
    }
    sum
}

/// Does the work so often, each time in a new builder.
fn anew(rounds: usize, mut work: impl FnMut(&mut Builder) -> u64) -> u64 {
    let mut sum = 0u64;
    for _ in 0..rounds.max(1) {
        let mut builder = Builder::new();
        sum = sum.wrapping_add(work(&mut builder));
    }
    sum
}

macro_rules! exports {
    ($($name:ident($data:ident, $param:ident, $rounds:ident) $body:block)*) => {$(
        #[no_mangle]
        pub unsafe extern "C" fn $name(p: *const u8, n: usize, $param: usize, _caches: usize, $rounds: usize) -> u64 {
            let $data = slice(p, n);
            $body
        }
    )*};
}

fn write_texts(builder: &mut Builder, texts: &[&str]) {
    for text in texts {
        builder.create_string(*text);
    }
}

fn write_byte_lists(builder: &mut Builder, data: &[u8], size: usize) {
    for bytes in data.chunks_exact(size) {
        builder.create_vector(bytes);
    }
}

exports! {
    bench_texts(data, size, rounds) {
        let texts = texts_of(data, size);
        reused(CAPACITY, rounds, |builder| {
            write_texts(builder, &texts);
            finished(builder, rounds)
        })
    }
    bench_growth(data, size, rounds) {
        let texts = texts_of(data, size);
        anew(rounds, |builder| {
            write_texts(builder, &texts);
            finished(builder, rounds)
        })
    }
    bench_blocks(data, _size, rounds) {
        reused(CAPACITY, rounds, |builder| {
            for chunk in data.chunks_exact(8) {
                let block: [u8; 8] = chunk.try_into().unwrap();
                // SAFETY: writes all 8 bytes.
                unsafe {
                    builder.write_with(8, 7, |_place, bytes: &mut [MaybeUninit<u8>]| bytes.as_mut_ptr().cast::<[u8; 8]>().write(block))
                }
            }
            finished(builder, rounds)
        })
    }
    bench_blobs(data, size, rounds) {
        reused(CAPACITY, rounds, |builder| {
            for blob in data.chunks_exact(size) {
                // SAFETY: writes all bytes.
                unsafe {
                    builder.write_with(blob.len(), 7, |_place, bytes: &mut [MaybeUninit<u8>]| {
                        std::ptr::copy_nonoverlapping(blob.as_ptr(), bytes.as_mut_ptr().cast(), blob.len())
                    })
                }
            }
            finished(builder, rounds)
        })
    }
    bench_numbers(data, items, rounds) {
        let numbers = numbers_of(data);
        reused(CAPACITY, rounds, |builder| {
            for list in numbers.chunks_exact(items) {
                builder.create_vector(list);
            }
            finished(builder, rounds)
        })
    }
    bench_text_lists(data, size, rounds) {
        let texts = texts_of(data, size);
        reused(CAPACITY, rounds, |builder| {
            for list in texts.chunks_exact(64) {
                builder.create_vector(list);
            }
            finished(builder, rounds)
        })
    }
    bench_byte_lists(data, size, rounds) {
        reused(CAPACITY, rounds, |builder| {
            write_byte_lists(builder, data, size);
            finished(builder, rounds)
        })
    }
    bench_growing_bytes(data, size, rounds) {
        anew(rounds, |builder| {
            write_byte_lists(builder, data, size);
            finished(builder, rounds)
        })
    }
    bench_small_tables(data, _size, rounds) {
        reused(CAPACITY, rounds, |builder| {
            let name = builder.create_string("Axe");
            for pair in data.chunks_exact(2) {
                Weapon::create(builder, name, i16::from_le_bytes([pair[0], pair[1]]) | 1);
            }
            finished(builder, rounds)
        })
    }
    bench_large_tables(data, _size, rounds) {
        reused(CAPACITY, rounds, |builder| {
            let name = builder.create_string("Orc");
            let inventory = builder.create_vector(&[1u8, 2, 3]);
            let axe = Weapon::create(builder, "Axe", 24i16);
            let weapons = builder.create_vector([axe]);
            let equipped = Equipment::create_weapon(builder, axe);
            let loot = builder.create_union_vector([equipped, equipped]);
            for pair in data.chunks_exact(2) {
                let hp = i16::from_le_bytes([pair[0], pair[1]]) | 1;
                Monster::create(builder, hp, name, inventory, weapons, equipped, loot);
            }
            finished(builder, rounds)
        })
    }
    bench_monsters(data, size, rounds) {
        let names = texts_of(data, size);
        reused(CAPACITY, rounds, |builder| {
            for name in &names {
                let axe = Weapon::create(builder, "Axe", 24i16);
                let equipped = Equipment::create_weapon(builder, axe);
                Monster::create(builder, 80i16, *name, &[1u8, 2, 3], [axe], equipped, [equipped, equipped]);
            }
            finished(builder, rounds)
        })
    }
    bench_messages(data, size, rounds) {
        let names = texts_of(data, size);
        reused(CAPACITY, rounds, |builder| {
            let mut sum = 0u64;
            for name in &names {
                builder.clear();
                let weapon = Weapon::create(builder, *name, 24i16);
                sum = sum.wrapping_add(sum_of(builder.finish(weapon, None), rounds));
            }
            sum
        })
    }
    bench_after_texts(data, size, rounds) {
        let texts = texts_of(data, size);
        let mut builder = Builder::with_capacity(CAPACITY);
        write_texts(&mut builder, &texts);
        let mut sum = 0u64;
        for _ in 0..rounds.max(1) {
            for text in &texts[..1000] {
                builder.clear();
                builder.create_string(*text);
                sum = sum.wrapping_add(finished(&mut builder, rounds));
            }
        }
        sum
    }
    bench_after_large(data, size, rounds) {
        let names = texts_of(data, size);
        let mut builder = Builder::with_capacity(CAPACITY);
        write_texts(&mut builder, &names);
        let mut sum = 0u64;
        for _ in 0..rounds.max(1) {
            for name in &names[..1000] {
                builder.clear();
                let weapon = Weapon::create(&mut builder, *name, 24i16);
                sum = sum.wrapping_add(sum_of(builder.finish(weapon, None), rounds));
            }
        }
        sum
    }
    bench_monster_messages(data, size, rounds) {
        let names = texts_of(data, size);
        reused(CAPACITY, rounds, |builder| {
            let mut sum = 0u64;
            for name in &names {
                builder.clear();
                let axe = Weapon::create(builder, "Axe", 24i16);
                let equipped = Equipment::create_weapon(builder, axe);
                let monster = Monster::create(builder, 80i16, *name, &[1u8, 2, 3], [axe], equipped, [equipped, equipped]);
                sum = sum.wrapping_add(sum_of(builder.finish(monster, None), rounds));
            }
            sum
        })
    }
}

#[no_mangle]
pub unsafe extern "C" fn bench_mixed(p: *const u8, n: usize, l: *const u8, m: usize, _caches: usize, rounds: usize) -> u64 {
    let texts = texts_by(slice(p, n), slice(l, m));
    reused(CAPACITY, rounds, |builder| {
        write_texts(builder, &texts);
        finished(builder, rounds)
    })
}

fn root(buffer: &[u8]) -> planus::Result<Table<'_>> {
    Table::from_buffer(SliceWithStartOffset { buffer, offset_from_start: 0 }, 0)
        .map_err(|kind| kind.with_error_location("[Root]", "read_as_root", 0))
}

fn read<'a, T: TableRead<'a>>(buffer: &'a [u8]) -> planus::Result<T> {
    T::from_buffer(SliceWithStartOffset { buffer, offset_from_start: 0 }, 0)
        .map_err(|kind| kind.with_error_location("[Root]", "read_as_root", 0))
}

fn text_sum(text: &str) -> u64 {
    (text.len() as u64).wrapping_add(text.as_bytes().first().copied().unwrap_or(0) as u64)
}

fn weapon(bytes: &[u8]) -> planus::Result<u64> {
    let table = root(bytes)?;
    let damage = table.access_required::<u16>(1, "Weapon", "damage")?;
    let name = table.access_required::<&str>(0, "Weapon", "name")?;
    Ok(text_sum(name).wrapping_add(damage as u64))
}

fn wide(bytes: &[u8]) -> planus::Result<u64> {
    let table = root(bytes)?;
    let number = table.access_required::<u64>(3, "Wide", "d")?;
    let text = table.access_required::<&str>(4, "Wide", "e")?;
    Ok(text_sum(text).wrapping_add(number))
}

fn wide_all(bytes: &[u8]) -> planus::Result<u64> {
    let table = root(bytes)?;
    let a = table.access_required::<u8>(0, "Wide", "a")?;
    let b = table.access_required::<u16>(1, "Wide", "b")?;
    let c = table.access_required::<u32>(2, "Wide", "c")?;
    let d = table.access_required::<u64>(3, "Wide", "d")?;
    let e = table.access_required::<&str>(4, "Wide", "e")?;
    let f = table.access_required::<i16>(5, "Wide", "f")?;
    let g = table.access_required::<bool>(6, "Wide", "g")?;
    let h = table.access_required::<&str>(7, "Wide", "h")?;
    let numbers = (a as u64)
        .wrapping_add(b as u64)
        .wrapping_add(c as u64)
        .wrapping_add(d)
        .wrapping_add((f < 0) as u64);
    let texts = text_sum(e).wrapping_add(text_sum(h));
    Ok(numbers.wrapping_add(texts).wrapping_add(g as u64))
}

fn sum_iter(bytes: &[u8]) -> planus::Result<u64> {
    let vector: Vector<u32> = read(bytes)?;
    let mut sum = 0u64;
    for number in vector.iter() {
        sum = sum.wrapping_add(number as u64);
    }
    Ok(sum)
}

fn sum_get(bytes: &[u8]) -> planus::Result<u64> {
    let vector: Vector<u32> = read(bytes)?;
    let mut sum = 0u64;
    for i in 0..vector.len() {
        if let Some(number) = vector.get(i) {
            sum = sum.wrapping_add(number as u64);
        }
    }
    Ok(sum)
}

fn sum_chunks(bytes: &[u8]) -> planus::Result<u64> {
    let vector: Vector<u32> = read(bytes)?;
    let mut sum = 0u64;
    for chunk in vector.chunks(16) {
        for number in chunk.iter() {
            sum = sum.wrapping_add(number as u64);
        }
    }
    Ok(sum)
}

fn sum_windows(bytes: &[u8]) -> planus::Result<u64> {
    let vector: Vector<u32> = read(bytes)?;
    let mut sum = 0u64;
    for window in vector.windows(4) {
        for number in window.iter() {
            sum = sum.wrapping_add(number as u64);
        }
    }
    Ok(sum)
}

fn texts_iter(bytes: &[u8]) -> planus::Result<u64> {
    let vector: Vector<planus::Result<&str>> = read(bytes)?;
    let mut sum = 0u64;
    for text in vector.iter() {
        sum = sum.wrapping_add(text_sum(text?));
    }
    Ok(sum)
}

fn weapon_sum(weapon: WeaponRef<'_>) -> planus::Result<u64> {
    let damage = weapon.damage()?;
    let name = weapon.name()?.unwrap_or("");
    Ok(text_sum(name).wrapping_add(damage as u64))
}

fn tables_iter(bytes: &[u8]) -> planus::Result<u64> {
    let vector: Vector<planus::Result<WeaponRef>> = read(bytes)?;
    let mut sum = 0u64;
    for weapon in vector.iter() {
        sum = sum.wrapping_add(weapon_sum(weapon?)?);
    }
    Ok(sum)
}

fn unions_sum(vector: UnionVector<'_, EquipmentRef<'_>>) -> planus::Result<u64> {
    let mut sum = 0u64;
    for equipment in vector.iter() {
        match equipment? {
            EquipmentRef::Weapon(weapon) => sum = sum.wrapping_add(weapon_sum(weapon)?),
        }
    }
    Ok(sum)
}

fn unions_iter(bytes: &[u8]) -> planus::Result<u64> {
    let monster: MonsterRef = read(bytes)?;
    match monster.loot()? {
        Some(loot) => unions_sum(loot),
        None => Ok(0),
    }
}

fn monster_all(bytes: &[u8]) -> planus::Result<u64> {
    let monster: MonsterRef = read(bytes)?;
    let mut sum = text_sum(monster.name()?).wrapping_add(monster.hp()? as u64);
    if let Some(inventory) = monster.inventory()? {
        sum = sum.wrapping_add(inventory.len() as u64);
    }
    if let Some(weapons) = monster.weapons()? {
        for weapon in weapons.iter() {
            sum = sum.wrapping_add(weapon_sum(weapon?)?);
        }
    }
    if let Some(EquipmentRef::Weapon(weapon)) = monster.equipped()? {
        sum = sum.wrapping_add(weapon_sum(weapon)?);
    }
    if let Some(loot) = monster.loot()? {
        sum = sum.wrapping_add(unions_sum(loot)?);
    }
    Ok(sum)
}

macro_rules! reads {
    ($($name:ident, $one:ident)*) => {$(
        #[no_mangle]
        pub unsafe extern "C" fn $name(p: *const u8, n: usize, stride: usize, rounds: usize) -> u64 {
            let data = slice(p, n);
            let mut sum = 0u64;
            for _ in 0..rounds {
                for bytes in data.chunks_exact(stride) {
                    match $one(bytes) {
                        Ok(more) => sum = sum.wrapping_add(more),
                        Err(_) => return u64::MAX,
                    }
                }
            }
            sum
        }
    )*};
}
reads! {
    bench_weapons, weapon
    bench_wide, wide
    bench_wide_all, wide_all
    bench_sum_iter, sum_iter
    bench_sum_get, sum_get
    bench_sum_chunks, sum_chunks
    bench_sum_windows, sum_windows
    bench_texts_iter, texts_iter
    bench_tables_iter, tables_iter
    bench_unions_iter, unions_iter
    bench_monster_all, monster_all
}
