//! Reading of buffers of `harbour`, by the calls of harbour.h. Over std alone, for Rust of 1.82 and later.
//!
//! A table is that of [`table_at`], and its methods read its fields. No byte and no position does
//! harm. Link the library of the calls: `-l static=NAME`, after `-L FOLDER`.
#![allow(dead_code, non_camel_case_types, non_snake_case, non_upper_case_globals)]

use std::fmt;

/// Why nothing is read.
#[derive(Clone, Copy, Debug, PartialEq, Eq)]
pub struct Error {
    pub status: u32,
}

impl fmt::Display for Error {
    fn fmt(&self, f: &mut fmt::Formatter<'_>) -> fmt::Result {
        f.write_str(match self.status {
            2 => "an offset leads out of the buffer",
            3 => "a length leads out of the buffer",
            4 => "the vectors of a union have different lengths",
            5 => "an enum has no such value",
            6 => "a union has no such tag",
            7 => "a vtable has a wrong length",
            8 => "a string isn't UTF-8",
            9 => "a required field is missing",
            10 => "a string doesn't end in a zero byte",
            11 => "tables lead to tables beyond the limit",
            12 => "more tables are reached than the limit",
            _ => "no status",
        })
    }
}

impl std::error::Error for Error {}

const INVALID_LENGTH: Error = Error { status: 3 };

const INVALID_UTF8: Error = Error { status: 8 };

const MISSING_REQUIRED: Error = Error { status: 9 };

/// A position in a buffer.
#[derive(Clone, Copy)]
pub struct BufferRef<'a> {
    buffer: &'a [u8],
    at: usize,
}

impl fmt::Debug for BufferRef<'_> {
    fn fmt(&self, f: &mut fmt::Formatter<'_>) -> fmt::Result {
        write!(f, "at {} of {} bytes", self.at, self.buffer.len())
    }
}

/// What a call stores of a vector or a string.
#[repr(C)]
#[derive(Clone, Copy)]
pub struct SpanRef {
    at: usize,
    len: usize,
}

/// What a call stores of a union.
#[repr(C)]
#[derive(Clone, Copy)]
pub struct MemberRef {
    at: usize,
    tag: u8,
}

type CallRef<T> = unsafe extern "C" fn(*const u8, usize, usize, *mut T) -> u32;

type ItemCallRef = unsafe extern "C" fn(*const u8, usize, usize, usize, *mut MemberRef) -> u32;

/// What is read of a field, or of an item of so many bytes.
pub trait TableRead<'a>: std::marker::Sized {
    /// What the call stores.
    type Plain: Copy;
    const SIZE: usize;
    fn of(place: BufferRef<'a>, out: Self::Plain) -> Result<Self, Error>;
    fn at(place: BufferRef<'a>) -> Result<Self, Error>;
}

// Each call is one that is declared below for what is stored.
fn call<T: Copy>(place: BufferRef<'_>, call: CallRef<T>) -> Result<Option<T>, Error> {
    let mut out = std::mem::MaybeUninit::<T>::zeroed();
    let (buffer, len) = (place.buffer.as_ptr(), place.buffer.len());
    match unsafe { call(buffer, len, place.at, out.as_mut_ptr()) } {
        0 => Ok(Some(unsafe { out.assume_init() })),
        1 => Ok(None),
        status => Err(Error { status }),
    }
}

fn maybe<'a, T: TableRead<'a>>(
    place: BufferRef<'a>,
    name: CallRef<T::Plain>,
) -> Result<Option<T>, Error> {
    match call(place, name)? {
        Some(out) => Ok(Some(T::of(place, out)?)),
        None => Ok(None),
    }
}

fn surely<'a, T: TableRead<'a>>(
    place: BufferRef<'a>,
    name: CallRef<T::Plain>,
) -> Result<T, Error> {
    maybe(place, name)?.ok_or(MISSING_REQUIRED)
}

fn bytes_of(place: BufferRef<'_>, span: SpanRef, size: usize) -> Result<&[u8], Error> {
    let len = span.len.checked_mul(size).ok_or(INVALID_LENGTH)?;
    let end = span.at.checked_add(len).ok_or(INVALID_LENGTH)?;
    place.buffer.get(span.at..end).ok_or(INVALID_LENGTH)
}

fn bytes_at<const N: usize>(place: BufferRef<'_>) -> Result<[u8; N], Error> {
    let rest = place.buffer.get(place.at..).ok_or(INVALID_LENGTH)?;
    rest.first_chunk::<N>().copied().ok_or(INVALID_LENGTH)
}

macro_rules! numbers {
    ($($number:ident)*) => {$(
        impl<'a> TableRead<'a> for $number {
            type Plain = $number;
            const SIZE: usize = size_of::<$number>();
            fn of(_: BufferRef<'a>, out: $number) -> Result<$number, Error> {
                Ok(out)
            }
            fn at(place: BufferRef<'a>) -> Result<$number, Error> {
                Ok($number::from_le_bytes(bytes_at(place)?))
            }
        }
    )*};
}

numbers!(u8 u16 u32 u64 i8 i16 i32 i64 f32 f64);

impl<'a> TableRead<'a> for bool {
    type Plain = u8;
    const SIZE: usize = 1;
    fn of(_: BufferRef<'a>, out: u8) -> Result<bool, Error> {
        Ok(out != 0)
    }
    fn at(place: BufferRef<'a>) -> Result<bool, Error> {
        Ok(u8::at(place)? != 0)
    }
}

impl<'a> TableRead<'a> for &'a str {
    type Plain = SpanRef;
    const SIZE: usize = 4;
    fn of(place: BufferRef<'a>, out: SpanRef) -> Result<&'a str, Error> {
        std::str::from_utf8(bytes_of(place, out, 1)?).map_err(|_| INVALID_UTF8)
    }
    fn at(place: BufferRef<'a>) -> Result<&'a str, Error> {
        surely(place, harbour_string_at)
    }
}

impl<'a> TableRead<'a> for &'a [u8] {
    type Plain = SpanRef;
    const SIZE: usize = 4;
    fn of(place: BufferRef<'a>, out: SpanRef) -> Result<&'a [u8], Error> {
        bytes_of(place, out, 1)
    }
    fn at(place: BufferRef<'a>) -> Result<&'a [u8], Error> {
        Ok(<&str>::at(place)?.as_bytes())
    }
}

/// Items that are read when they are asked for.
pub struct Vector<'a, T> {
    place: BufferRef<'a>,
    span: SpanRef,
    items: std::marker::PhantomData<T>,
}

impl<T> Clone for Vector<'_, T> {
    fn clone(&self) -> Self {
        *self
    }
}

impl<T> Copy for Vector<'_, T> {}

impl<T> fmt::Debug for Vector<'_, T> {
    fn fmt(&self, f: &mut fmt::Formatter<'_>) -> fmt::Result {
        write!(f, "{} items", self.span.len)
    }
}

impl<'a, T: TableRead<'a>> Vector<'a, T> {
    pub fn len(&self) -> usize {
        self.span.len
    }

    pub fn is_empty(&self) -> bool {
        self.span.len == 0
    }

    /// The bytes of all items.
    pub fn as_bytes(&self) -> Result<&'a [u8], Error> {
        bytes_of(self.place, self.span, T::SIZE)
    }

    /// The item at an index, if there is one.
    pub fn get(&self, index: usize) -> Option<Result<T, Error>> {
        if index >= self.span.len {
            return None;
        }
        Some(T::at(BufferRef {
            buffer: self.place.buffer,
            at: self.span.at.wrapping_add(index.wrapping_mul(T::SIZE)),
        }))
    }

    pub fn iter(&self) -> VectorView<'a, T> {
        self.into_iter()
    }
}

impl<'a, T: TableRead<'a>> TableRead<'a> for Vector<'a, T> {
    type Plain = SpanRef;
    const SIZE: usize = 4;
    fn of(place: BufferRef<'a>, out: SpanRef) -> Result<Self, Error> {
        let items = std::marker::PhantomData;
        Ok(Vector { place, span: out, items })
    }
    fn at(_: BufferRef<'a>) -> Result<Self, Error> {
        Err(INVALID_LENGTH)
    }
}

impl<'a, T: TableRead<'a>> std::iter::IntoIterator for Vector<'a, T> {
    type Item = Result<T, Error>;
    type IntoIter = VectorView<'a, T>;
    fn into_iter(self) -> VectorView<'a, T> {
        VectorView { list: self, index: 0 }
    }
}

/// The items of a vector, one after another.
#[derive(Clone, Debug)]
pub struct VectorView<'a, T> {
    list: Vector<'a, T>,
    index: usize,
}

impl<'a, T: TableRead<'a>> std::iter::Iterator for VectorView<'a, T> {
    type Item = Result<T, Error>;
    fn next(&mut self) -> Option<Result<T, Error>> {
        let item = self.list.get(self.index)?;
        self.index += 1;
        Some(item)
    }
}

/// The same of unions.
pub struct UnionVector<'a, T> {
    place: BufferRef<'a>,
    call: ItemCallRef,
    count: usize,
    items: std::marker::PhantomData<T>,
}

impl<T> Clone for UnionVector<'_, T> {
    fn clone(&self) -> Self {
        *self
    }
}

impl<T> Copy for UnionVector<'_, T> {}

impl<T> fmt::Debug for UnionVector<'_, T> {
    fn fmt(&self, f: &mut fmt::Formatter<'_>) -> fmt::Result {
        write!(f, "{} unions", self.count)
    }
}

fn member_at(
    place: BufferRef<'_>,
    call: ItemCallRef,
    index: usize,
) -> Result<Option<MemberRef>, Error> {
    let mut out = MemberRef { at: 0, tag: 0 };
    let (buffer, len) = (place.buffer.as_ptr(), place.buffer.len());
    match unsafe { call(buffer, len, place.at, index, &mut out) } {
        0 => Ok(Some(out)),
        1 => Ok(None),
        status => Err(Error { status }),
    }
}

fn unions<'a, T>(place: BufferRef<'a>, call: ItemCallRef) -> Result<UnionVector<'a, T>, Error> {
    let (mut count, mut end) = (0, usize::MAX);
    member_at(place, call, end)?;
    while count < end {
        let middle = count + (end - count) / 2;
        match member_at(place, call, middle) {
            Ok(None) => end = middle,
            _ => count = middle + 1,
        }
    }
    let items = std::marker::PhantomData;
    Ok(UnionVector { place, call, count, items })
}

impl<'a, T: TableRead<'a, Plain = MemberRef>> UnionVector<'a, T> {
    pub fn len(&self) -> usize {
        self.count
    }

    pub fn is_empty(&self) -> bool {
        self.count == 0
    }

    /// The union at an index, if there is one.
    pub fn get(&self, index: usize) -> Option<Result<T, Error>> {
        match member_at(self.place, self.call, index) {
            Ok(Some(out)) => Some(T::of(self.place, out)),
            Ok(None) => None,
            Err(error) => Some(Err(error)),
        }
    }

    pub fn iter(&self) -> UnionVectorView<'a, T> {
        self.into_iter()
    }
}

impl<'a, T: TableRead<'a, Plain = MemberRef>> std::iter::IntoIterator for UnionVector<'a, T> {
    type Item = Result<T, Error>;
    type IntoIter = UnionVectorView<'a, T>;
    fn into_iter(self) -> UnionVectorView<'a, T> {
        UnionVectorView { list: self, index: 0 }
    }
}

/// The unions of a vector, one after another.
#[derive(Clone, Debug)]
pub struct UnionVectorView<'a, T> {
    list: UnionVector<'a, T>,
    index: usize,
}

impl<'a, T: TableRead<'a, Plain = MemberRef>> std::iter::Iterator for UnionVectorView<'a, T> {
    type Item = Result<T, Error>;
    fn next(&mut self) -> Option<Result<T, Error>> {
        let item = self.list.get(self.index)?;
        self.index += 1;
        Some(item)
    }
}

/// A table.
pub trait TableKind<'a> {
    fn in_buffer(place: BufferRef<'a>) -> Self;
}

/// The table to which the reference at a position of a buffer leads. The root is at 0.
pub fn table_at<'a, T: TableKind<'a>>(buffer: &'a [u8], at: usize) -> T {
    T::in_buffer(BufferRef { buffer, at })
}

/// The first of these size-prefixed buffers, after its size.
pub fn sized(buffer: &[u8]) -> Result<&[u8], Error> {
    let mut out = SpanRef { at: 0, len: 0 };
    match unsafe { harbour_sized(buffer.as_ptr(), buffer.len(), &mut out) } {
        0 => bytes_of(BufferRef { buffer, at: 0 }, out, 1),
        status => Err(Error { status }),
    }
}

/// Whether a buffer has the file identifier of the schema.
pub fn has_identifier(buffer: &[u8]) -> bool {
    unsafe { harbour_has_identifier(buffer.as_ptr(), buffer.len()) }
}

/// The table at the root of a buffer.
pub fn root(buffer: &[u8]) -> Ship<'_> {
    table_at(buffer, 0)
}

/// Tests all that the root leads to: after it no method fails, but of a number that its enum doesn't
/// have. No more than `depth` tables may stand one in the other, and no more than `most_tables` be
/// reached, each as often as it is; flatc's own verifiers have 64 and 1000000.
pub fn verify(buffer: &[u8], depth: u8, most_tables: usize) -> Result<(), Error> {
    let mut place = [0; 4];
    match unsafe { harbour_verify(buffer.as_ptr(), buffer.len(), depth, most_tables, &mut place) } {
        0 => Ok(()),
        status => Err(Error { status }),
    }
}

#[repr(transparent)]
#[derive(Clone, Copy, Debug, PartialEq, Eq, PartialOrd, Ord, Hash)]
pub struct Kind(pub u8);

impl Kind {
    pub const Car: Kind = Kind(0);
    pub const Bike: Kind = Kind(1);
    pub const Ship: Kind = Kind(2);
}

const _: () = assert!(size_of::<Kind>() == 1);

impl<'a> TableRead<'a> for Kind {
    type Plain = Kind;
    const SIZE: usize = 1;
    fn of(_: BufferRef<'a>, out: Kind) -> Result<Kind, Error> {
        Ok(out)
    }
    fn at(place: BufferRef<'a>) -> Result<Kind, Error> {
        surely(place, harbour_kind_at)
    }
}

#[repr(transparent)]
#[derive(Clone, Copy, Debug, PartialEq, Eq, PartialOrd, Ord, Hash)]
pub struct Level(pub i16);

impl Level {
    pub const Low: Level = Level(-300);
    pub const Mid: Level = Level(0);
    pub const High: Level = Level(300);
}

const _: () = assert!(size_of::<Level>() == 2);

impl<'a> TableRead<'a> for Level {
    type Plain = Level;
    const SIZE: usize = 2;
    fn of(_: BufferRef<'a>, out: Level) -> Result<Level, Error> {
        Ok(out)
    }
    fn at(place: BufferRef<'a>) -> Result<Level, Error> {
        surely(place, harbour_level_at)
    }
}

#[repr(transparent)]
#[derive(Clone, Copy, Debug, PartialEq, Eq, PartialOrd, Ord, Hash)]
pub struct Needs(pub u16);

impl Needs {
    pub const WATER: Needs = Needs(1);
    pub const POWER: Needs = Needs(2);
}

impl std::ops::BitOr for Needs {
    type Output = Needs;
    fn bitor(self, other: Needs) -> Needs {
        Needs(self.0 | other.0)
    }
}

impl std::ops::BitAnd for Needs {
    type Output = Needs;
    fn bitand(self, other: Needs) -> Needs {
        Needs(self.0 & other.0)
    }
}

const _: () = assert!(size_of::<Needs>() == 2);

impl<'a> TableRead<'a> for Needs {
    type Plain = Needs;
    const SIZE: usize = 2;
    fn of(_: BufferRef<'a>, out: Needs) -> Result<Needs, Error> {
        Ok(out)
    }
    fn at(place: BufferRef<'a>) -> Result<Needs, Error> {
        surely(place, harbour_needs_at)
    }
}

#[repr(C)]
#[derive(Clone, Copy, Debug, PartialEq)]
pub struct Pos {
    pub lat: i32,
    pub lon: i32,
    pub alt: i16,
    padding_3: [u8; 2],
}

const _: () = assert!(size_of::<Pos>() == 12);

impl<'a> TableRead<'a> for Pos {
    type Plain = Pos;
    const SIZE: usize = 12;
    fn of(_: BufferRef<'a>, out: Pos) -> Result<Pos, Error> {
        Ok(out)
    }
    fn at(place: BufferRef<'a>) -> Result<Pos, Error> {
        surely(place, harbour_pos_at)
    }
}

#[repr(C)]
#[derive(Clone, Copy, Debug, PartialEq)]
pub struct Fix {
    pub when: u64,
    pub at: Pos,
    pub kind: Kind,
    padding_3: [u8; 3],
}

const _: () = assert!(size_of::<Fix>() == 24);

impl<'a> TableRead<'a> for Fix {
    type Plain = Fix;
    const SIZE: usize = 24;
    fn of(_: BufferRef<'a>, out: Fix) -> Result<Fix, Error> {
        Ok(out)
    }
    fn at(place: BufferRef<'a>) -> Result<Fix, Error> {
        surely(place, harbour_fix_at)
    }
}

/// Tables `Person`.
#[derive(Clone, Copy, Debug)]
pub struct Person<'a> {
    place: BufferRef<'a>,
}

impl<'a> TableKind<'a> for Person<'a> {
    fn in_buffer(place: BufferRef<'a>) -> Person<'a> {
        Person { place }
    }
}

impl<'a> TableRead<'a> for Person<'a> {
    type Plain = usize;
    const SIZE: usize = 4;
    fn of(place: BufferRef<'a>, at: usize) -> Result<Person<'a>, Error> {
        Ok(table_at(place.buffer, at))
    }
    fn at(place: BufferRef<'a>) -> Result<Person<'a>, Error> {
        Ok(Person { place })
    }
}

impl<'a> Person<'a> {
    pub fn name(&self) -> Result<&'a str, Error> {
        surely(self.place, harbour_person_name)
    }
    pub fn age(&self) -> Result<u8, Error> {
        surely(self.place, harbour_person_age)
    }
}

/// Tables `Company`.
#[derive(Clone, Copy, Debug)]
pub struct Company<'a> {
    place: BufferRef<'a>,
}

impl<'a> TableKind<'a> for Company<'a> {
    fn in_buffer(place: BufferRef<'a>) -> Company<'a> {
        Company { place }
    }
}

impl<'a> TableRead<'a> for Company<'a> {
    type Plain = usize;
    const SIZE: usize = 4;
    fn of(place: BufferRef<'a>, at: usize) -> Result<Company<'a>, Error> {
        Ok(table_at(place.buffer, at))
    }
    fn at(place: BufferRef<'a>) -> Result<Company<'a>, Error> {
        Ok(Company { place })
    }
}

impl<'a> Company<'a> {
    pub fn title(&self) -> Result<Option<&'a str>, Error> {
        maybe(self.place, harbour_company_title)
    }
    pub fn vat(&self) -> Result<Option<&'a [u8]>, Error> {
        maybe(self.place, harbour_company_vat)
    }
}

/// A union's value, by its tag.
#[derive(Clone, Copy, Debug)]
pub enum Owner<'a> {
    Person(Person<'a>),
    Firm(Company<'a>),
    /// A tag that the schema doesn't have, and where the value is.
    Unknown(u8, BufferRef<'a>),
}

impl<'a> TableRead<'a> for Owner<'a> {
    type Plain = MemberRef;
    const SIZE: usize = 4;
    fn of(place: BufferRef<'a>, out: MemberRef) -> Result<Owner<'a>, Error> {
        let (buffer, at) = (place.buffer, out.at);
        let place = BufferRef { buffer, at };
        match out.tag {
            1 => Ok(Owner::Person(TableRead::at(place)?)),
            2 => Ok(Owner::Firm(TableRead::at(place)?)),
            tag => Ok(Owner::Unknown(tag, place)),
        }
    }
    fn at(_: BufferRef<'a>) -> Result<Owner<'a>, Error> {
        Err(INVALID_LENGTH)
    }
}

/// Tables `Ship`.
#[derive(Clone, Copy, Debug)]
pub struct Ship<'a> {
    place: BufferRef<'a>,
}

impl<'a> TableKind<'a> for Ship<'a> {
    fn in_buffer(place: BufferRef<'a>) -> Ship<'a> {
        Ship { place }
    }
}

impl<'a> TableRead<'a> for Ship<'a> {
    type Plain = usize;
    const SIZE: usize = 4;
    fn of(place: BufferRef<'a>, at: usize) -> Result<Ship<'a>, Error> {
        Ok(table_at(place.buffer, at))
    }
    fn at(place: BufferRef<'a>) -> Result<Ship<'a>, Error> {
        Ok(Ship { place })
    }
}

impl<'a> Ship<'a> {
    pub fn name(&self) -> Result<&'a str, Error> {
        surely(self.place, harbour_ship_name)
    }
    pub fn hull(&self) -> Result<u16, Error> {
        surely(self.place, harbour_ship_hull)
    }
    pub fn cargo(&self) -> Result<Option<Vector<'a, u32>>, Error> {
        maybe(self.place, harbour_ship_cargo)
    }
    pub fn kind(&self) -> Result<Kind, Error> {
        surely(self.place, harbour_ship_kind)
    }
    pub fn level(&self) -> Result<Level, Error> {
        surely(self.place, harbour_ship_level)
    }
    pub fn needs(&self) -> Result<Needs, Error> {
        surely(self.place, harbour_ship_needs)
    }
    pub fn home(&self) -> Result<Option<Pos>, Error> {
        maybe(self.place, harbour_ship_home)
    }
    pub fn track(&self) -> Result<Option<Vector<'a, Pos>>, Error> {
        maybe(self.place, harbour_ship_track)
    }
    pub fn heat(&self) -> Result<f32, Error> {
        surely(self.place, harbour_ship_heat)
    }
    pub fn depth(&self) -> Result<i16, Error> {
        surely(self.place, harbour_ship_depth)
    }
    pub fn open(&self) -> Result<bool, Error> {
        surely(self.place, harbour_ship_open)
    }
    pub fn shut(&self) -> Result<bool, Error> {
        surely(self.place, harbour_ship_shut)
    }
    pub fn maybe(&self) -> Result<Option<i32>, Error> {
        maybe(self.place, harbour_ship_maybe)
    }
    pub fn photo(&self) -> Result<Option<&'a [u8]>, Error> {
        maybe(self.place, harbour_ship_photo)
    }
    pub fn names(&self) -> Result<Option<Vector<'a, &'a str>>, Error> {
        maybe(self.place, harbour_ship_names)
    }
    pub fn mate(&self) -> Result<Option<Ship<'a>>, Error> {
        maybe(self.place, harbour_ship_mate)
    }
    pub fn consorts(&self) -> Result<Option<Vector<'a, Ship<'a>>>, Error> {
        maybe(self.place, harbour_ship_consorts)
    }
    pub fn kinds(&self) -> Result<Option<Vector<'a, Kind>>, Error> {
        maybe(self.place, harbour_ship_kinds)
    }
    pub fn owner(&self) -> Result<Option<Owner<'a>>, Error> {
        maybe(self.place, harbour_ship_owner)
    }
    pub fn shares(&self) -> Result<UnionVector<'a, Owner<'a>>, Error> {
        unions(self.place, harbour_ship_shares)
    }
    pub fn tall(&self) -> Result<i64, Error> {
        surely(self.place, harbour_ship_tall)
    }
    pub fn temps(&self) -> Result<Option<Vector<'a, f64>>, Error> {
        maybe(self.place, harbour_ship_temps)
    }
    pub fn deltas(&self) -> Result<Option<Vector<'a, i8>>, Error> {
        maybe(self.place, harbour_ship_deltas)
    }
    pub fn fix(&self) -> Result<Fix, Error> {
        surely(self.place, harbour_ship_fix)
    }
    pub fn which(&self) -> Result<Option<Kind>, Error> {
        maybe(self.place, harbour_ship_which)
    }
    pub fn flags(&self) -> Result<Option<Vector<'a, bool>>, Error> {
        maybe(self.place, harbour_ship_flags)
    }
}

#[repr(C)]
#[derive(Clone, Copy, Debug, PartialEq)]
pub struct Gauge {
    pub depth: i32,
    pub rises: bool,
    padding_2: [u8; 3],
}

const _: () = assert!(size_of::<Gauge>() == 8);

impl<'a> TableRead<'a> for Gauge {
    type Plain = Gauge;
    const SIZE: usize = 8;
    fn of(_: BufferRef<'a>, out: Gauge) -> Result<Gauge, Error> {
        Ok(out)
    }
    fn at(place: BufferRef<'a>) -> Result<Gauge, Error> {
        surely(place, harbour_gauge_at)
    }
}

#[repr(transparent)]
#[derive(Clone, Copy, Debug, PartialEq, Eq, PartialOrd, Ord, Hash)]
pub struct Signal(pub i8);

impl Signal {
    pub const Alfa: Signal = Signal(0);
    pub const Bravo: Signal = Signal(1);
    pub const Charlie: Signal = Signal(2);
    pub const Delta: Signal = Signal(3);
    pub const Echo: Signal = Signal(4);
    pub const Foxtrot: Signal = Signal(5);
    pub const Golf: Signal = Signal(6);
    pub const Hotel: Signal = Signal(7);
    pub const India: Signal = Signal(8);
    pub const Juliett: Signal = Signal(9);
    pub const Kilo: Signal = Signal(10);
    pub const Lima: Signal = Signal(11);
    pub const Mike: Signal = Signal(12);
    pub const November: Signal = Signal(13);
    pub const Oscar: Signal = Signal(14);
    pub const Papa: Signal = Signal(15);
    pub const Quebec: Signal = Signal(16);
    pub const Romeo: Signal = Signal(17);
    pub const Sierra: Signal = Signal(18);
    pub const Tango: Signal = Signal(19);
    pub const Uniform: Signal = Signal(20);
    pub const Victor: Signal = Signal(21);
    pub const Whiskey: Signal = Signal(22);
    pub const Xray: Signal = Signal(23);
    pub const Yankee: Signal = Signal(24);
    pub const Zulu: Signal = Signal(25);
}

const _: () = assert!(size_of::<Signal>() == 1);

impl<'a> TableRead<'a> for Signal {
    type Plain = Signal;
    const SIZE: usize = 1;
    fn of(_: BufferRef<'a>, out: Signal) -> Result<Signal, Error> {
        Ok(out)
    }
    fn at(place: BufferRef<'a>) -> Result<Signal, Error> {
        surely(place, harbour_signal_at)
    }
}

/// Tables `Port`.
#[derive(Clone, Copy, Debug)]
pub struct Port<'a> {
    place: BufferRef<'a>,
}

impl<'a> TableKind<'a> for Port<'a> {
    fn in_buffer(place: BufferRef<'a>) -> Port<'a> {
        Port { place }
    }
}

impl<'a> TableRead<'a> for Port<'a> {
    type Plain = usize;
    const SIZE: usize = 4;
    fn of(place: BufferRef<'a>, at: usize) -> Result<Port<'a>, Error> {
        Ok(table_at(place.buffer, at))
    }
    fn at(place: BufferRef<'a>) -> Result<Port<'a>, Error> {
        Ok(Port { place })
    }
}

impl<'a> Port<'a> {
    pub fn owner(&self) -> Result<Owner<'a>, Error> {
        surely(self.place, harbour_port_owner)
    }
    pub fn ships(&self) -> Result<Vector<'a, Ship<'a>>, Error> {
        surely(self.place, harbour_port_ships)
    }
    pub fn berths(&self) -> Result<Vector<'a, &'a str>, Error> {
        surely(self.place, harbour_port_berths)
    }
    pub fn shares(&self) -> Result<UnionVector<'a, Owner<'a>>, Error> {
        unions(self.place, harbour_port_shares)
    }
    pub fn soundings(&self) -> Result<Vector<'a, u16>, Error> {
        surely(self.place, harbour_port_soundings)
    }
    pub fn chart(&self) -> Result<&'a [u8], Error> {
        surely(self.place, harbour_port_chart)
    }
    pub fn gauge(&self) -> Result<Option<Gauge>, Error> {
        maybe(self.place, harbour_port_gauge)
    }
    pub fn hoisted(&self) -> Result<Signal, Error> {
        surely(self.place, harbour_port_hoisted)
    }
}

/// Tables `Manifest`.
#[derive(Clone, Copy, Debug)]
pub struct Manifest<'a> {
    place: BufferRef<'a>,
}

impl<'a> TableKind<'a> for Manifest<'a> {
    fn in_buffer(place: BufferRef<'a>) -> Manifest<'a> {
        Manifest { place }
    }
}

impl<'a> TableRead<'a> for Manifest<'a> {
    type Plain = usize;
    const SIZE: usize = 4;
    fn of(place: BufferRef<'a>, at: usize) -> Result<Manifest<'a>, Error> {
        Ok(table_at(place.buffer, at))
    }
    fn at(place: BufferRef<'a>) -> Result<Manifest<'a>, Error> {
        Ok(Manifest { place })
    }
}

impl<'a> Manifest<'a> {
    pub fn number(&self) -> Result<u64, Error> {
        surely(self.place, harbour_manifest_number)
    }
    pub fn issued(&self) -> Result<i64, Error> {
        surely(self.place, harbour_manifest_issued)
    }
    pub fn weight(&self) -> Result<f64, Error> {
        surely(self.place, harbour_manifest_weight)
    }
    pub fn worth(&self) -> Result<f32, Error> {
        surely(self.place, harbour_manifest_worth)
    }
    pub fn boxes(&self) -> Result<u32, Error> {
        surely(self.place, harbour_manifest_boxes)
    }
    pub fn debt(&self) -> Result<i32, Error> {
        surely(self.place, harbour_manifest_debt)
    }
    pub fn pages(&self) -> Result<u16, Error> {
        surely(self.place, harbour_manifest_pages)
    }
    pub fn shift(&self) -> Result<i16, Error> {
        surely(self.place, harbour_manifest_shift)
    }
    pub fn tier(&self) -> Result<u8, Error> {
        surely(self.place, harbour_manifest_tier)
    }
    pub fn lean(&self) -> Result<i8, Error> {
        surely(self.place, harbour_manifest_lean)
    }
    pub fn sealed(&self) -> Result<bool, Error> {
        surely(self.place, harbour_manifest_sealed)
    }
    pub fn opened(&self) -> Result<bool, Error> {
        surely(self.place, harbour_manifest_opened)
    }
    pub fn kind(&self) -> Result<Kind, Error> {
        surely(self.place, harbour_manifest_kind)
    }
    pub fn level(&self) -> Result<Level, Error> {
        surely(self.place, harbour_manifest_level)
    }
    pub fn needs(&self) -> Result<Needs, Error> {
        surely(self.place, harbour_manifest_needs)
    }
    pub fn signal(&self) -> Result<Signal, Error> {
        surely(self.place, harbour_manifest_signal)
    }
    pub fn rank(&self) -> Result<Option<u64>, Error> {
        maybe(self.place, harbour_manifest_rank)
    }
    pub fn margin(&self) -> Result<Option<f64>, Error> {
        maybe(self.place, harbour_manifest_margin)
    }
    pub fn dues(&self) -> Result<Option<i32>, Error> {
        maybe(self.place, harbour_manifest_dues)
    }
    pub fn paid(&self) -> Result<Option<bool>, Error> {
        maybe(self.place, harbour_manifest_paid)
    }
    pub fn grade(&self) -> Result<Option<Kind>, Error> {
        maybe(self.place, harbour_manifest_grade)
    }
    pub fn berth(&self) -> Result<Option<Pos>, Error> {
        maybe(self.place, harbour_manifest_berth)
    }
    pub fn gauge(&self) -> Result<Gauge, Error> {
        surely(self.place, harbour_manifest_gauge)
    }
    pub fn title(&self) -> Result<&'a str, Error> {
        surely(self.place, harbour_manifest_title)
    }
    pub fn note(&self) -> Result<Option<&'a str>, Error> {
        maybe(self.place, harbour_manifest_note)
    }
    pub fn scan(&self) -> Result<Option<&'a [u8]>, Error> {
        maybe(self.place, harbour_manifest_scan)
    }
    pub fn stamp(&self) -> Result<&'a [u8], Error> {
        surely(self.place, harbour_manifest_stamp)
    }
    pub fn weights(&self) -> Result<Option<Vector<'a, f64>>, Error> {
        maybe(self.place, harbour_manifest_weights)
    }
    pub fn counts(&self) -> Result<Vector<'a, u32>, Error> {
        surely(self.place, harbour_manifest_counts)
    }
    pub fn offsets(&self) -> Result<Option<Vector<'a, i16>>, Error> {
        maybe(self.place, harbour_manifest_offsets)
    }
    pub fn marks(&self) -> Result<Option<Vector<'a, bool>>, Error> {
        maybe(self.place, harbour_manifest_marks)
    }
    pub fn kinds(&self) -> Result<Option<Vector<'a, Kind>>, Error> {
        maybe(self.place, harbour_manifest_kinds)
    }
    pub fn track(&self) -> Result<Option<Vector<'a, Pos>>, Error> {
        maybe(self.place, harbour_manifest_track)
    }
    pub fn labels(&self) -> Result<Option<Vector<'a, &'a str>>, Error> {
        maybe(self.place, harbour_manifest_labels)
    }
    pub fn holders(&self) -> Result<Vector<'a, &'a str>, Error> {
        surely(self.place, harbour_manifest_holders)
    }
    pub fn ship(&self) -> Result<Ship<'a>, Error> {
        surely(self.place, harbour_manifest_ship)
    }
    pub fn next(&self) -> Result<Option<Manifest<'a>>, Error> {
        maybe(self.place, harbour_manifest_next)
    }
    pub fn persons(&self) -> Result<Option<Vector<'a, Person<'a>>>, Error> {
        maybe(self.place, harbour_manifest_persons)
    }
    pub fn parts(&self) -> Result<Vector<'a, Manifest<'a>>, Error> {
        surely(self.place, harbour_manifest_parts)
    }
    pub fn owner(&self) -> Result<Option<Owner<'a>>, Error> {
        maybe(self.place, harbour_manifest_owner)
    }
    pub fn payer(&self) -> Result<Owner<'a>, Error> {
        surely(self.place, harbour_manifest_payer)
    }
    pub fn owners(&self) -> Result<UnionVector<'a, Owner<'a>>, Error> {
        unions(self.place, harbour_manifest_owners)
    }
}

/// Tables `Origin`.
#[derive(Clone, Copy, Debug)]
pub struct Origin<'a> {
    place: BufferRef<'a>,
}

impl<'a> TableKind<'a> for Origin<'a> {
    fn in_buffer(place: BufferRef<'a>) -> Origin<'a> {
        Origin { place }
    }
}

impl<'a> TableRead<'a> for Origin<'a> {
    type Plain = usize;
    const SIZE: usize = 4;
    fn of(place: BufferRef<'a>, at: usize) -> Result<Origin<'a>, Error> {
        Ok(table_at(place.buffer, at))
    }
    fn at(place: BufferRef<'a>) -> Result<Origin<'a>, Error> {
        Ok(Origin { place })
    }
}

impl<'a> Origin<'a> {
    pub fn host(&self) -> Result<Option<&'a str>, Error> {
        maybe(self.place, harbour_origin_host)
    }
    pub fn port(&self) -> Result<u16, Error> {
        surely(self.place, harbour_origin_port)
    }
}

/// A union's value, by its tag.
#[derive(Clone, Copy, Debug)]
pub enum Cause<'a> {
    Entry(Entry<'a>),
    Origin(Origin<'a>),
    /// A tag that the schema doesn't have, and where the value is.
    Unknown(u8, BufferRef<'a>),
}

impl<'a> TableRead<'a> for Cause<'a> {
    type Plain = MemberRef;
    const SIZE: usize = 4;
    fn of(place: BufferRef<'a>, out: MemberRef) -> Result<Cause<'a>, Error> {
        let (buffer, at) = (place.buffer, out.at);
        let place = BufferRef { buffer, at };
        match out.tag {
            1 => Ok(Cause::Entry(TableRead::at(place)?)),
            2 => Ok(Cause::Origin(TableRead::at(place)?)),
            tag => Ok(Cause::Unknown(tag, place)),
        }
    }
    fn at(_: BufferRef<'a>) -> Result<Cause<'a>, Error> {
        Err(INVALID_LENGTH)
    }
}

/// Tables `Entry`.
#[derive(Clone, Copy, Debug)]
pub struct Entry<'a> {
    place: BufferRef<'a>,
}

impl<'a> TableKind<'a> for Entry<'a> {
    fn in_buffer(place: BufferRef<'a>) -> Entry<'a> {
        Entry { place }
    }
}

impl<'a> TableRead<'a> for Entry<'a> {
    type Plain = usize;
    const SIZE: usize = 4;
    fn of(place: BufferRef<'a>, at: usize) -> Result<Entry<'a>, Error> {
        Ok(table_at(place.buffer, at))
    }
    fn at(place: BufferRef<'a>) -> Result<Entry<'a>, Error> {
        Ok(Entry { place })
    }
}

impl<'a> Entry<'a> {
    pub fn at(&self) -> Result<u64, Error> {
        surely(self.place, harbour_entry_at)
    }
    pub fn text(&self) -> Result<&'a str, Error> {
        surely(self.place, harbour_entry_text)
    }
    pub fn origin(&self) -> Result<Origin<'a>, Error> {
        surely(self.place, harbour_entry_origin)
    }
    pub fn cause(&self) -> Result<Option<Cause<'a>>, Error> {
        maybe(self.place, harbour_entry_cause)
    }
    pub fn parents(&self) -> Result<Option<Vector<'a, Entry<'a>>>, Error> {
        maybe(self.place, harbour_entry_parents)
    }
}

unsafe extern "C" {
    fn harbour_string_at(buffer: *const u8, len: usize, at: usize, out: *mut SpanRef) -> u32;
    fn harbour_sized(buffer: *const u8, len: usize, out: *mut SpanRef) -> u32;
    fn harbour_has_identifier(buffer: *const u8, len: usize) -> bool;
    fn harbour_verify(buffer: *const u8, len: usize, depth: u8, most_tables: usize, place: *mut [usize; 4]) -> u32;
    fn harbour_kind_at(buffer: *const u8, len: usize, at: usize, out: *mut Kind) -> u32;
    fn harbour_level_at(buffer: *const u8, len: usize, at: usize, out: *mut Level) -> u32;
    fn harbour_needs_at(buffer: *const u8, len: usize, at: usize, out: *mut Needs) -> u32;
    fn harbour_pos_at(buffer: *const u8, len: usize, at: usize, out: *mut Pos) -> u32;
    fn harbour_pos_behind(buffer: *const u8, len: usize, at: usize, out: *mut Pos) -> u32;
    fn harbour_fix_at(buffer: *const u8, len: usize, at: usize, out: *mut Fix) -> u32;
    fn harbour_fix_behind(buffer: *const u8, len: usize, at: usize, out: *mut Fix) -> u32;
    fn harbour_gauge_at(buffer: *const u8, len: usize, at: usize, out: *mut Gauge) -> u32;
    fn harbour_gauge_behind(buffer: *const u8, len: usize, at: usize, out: *mut Gauge) -> u32;
    fn harbour_signal_at(buffer: *const u8, len: usize, at: usize, out: *mut Signal) -> u32;
    fn harbour_person_name(buffer: *const u8, len: usize, at: usize, out: *mut SpanRef) -> u32;
    fn harbour_person_age(buffer: *const u8, len: usize, at: usize, out: *mut u8) -> u32;
    fn harbour_company_title(buffer: *const u8, len: usize, at: usize, out: *mut SpanRef) -> u32;
    fn harbour_company_vat(buffer: *const u8, len: usize, at: usize, out: *mut SpanRef) -> u32;
    fn harbour_ship_name(buffer: *const u8, len: usize, at: usize, out: *mut SpanRef) -> u32;
    fn harbour_ship_hull(buffer: *const u8, len: usize, at: usize, out: *mut u16) -> u32;
    fn harbour_ship_cargo(buffer: *const u8, len: usize, at: usize, out: *mut SpanRef) -> u32;
    fn harbour_ship_kind(buffer: *const u8, len: usize, at: usize, out: *mut Kind) -> u32;
    fn harbour_ship_level(buffer: *const u8, len: usize, at: usize, out: *mut Level) -> u32;
    fn harbour_ship_needs(buffer: *const u8, len: usize, at: usize, out: *mut Needs) -> u32;
    fn harbour_ship_home(buffer: *const u8, len: usize, at: usize, out: *mut Pos) -> u32;
    fn harbour_ship_track(buffer: *const u8, len: usize, at: usize, out: *mut SpanRef) -> u32;
    fn harbour_ship_heat(buffer: *const u8, len: usize, at: usize, out: *mut f32) -> u32;
    fn harbour_ship_depth(buffer: *const u8, len: usize, at: usize, out: *mut i16) -> u32;
    fn harbour_ship_open(buffer: *const u8, len: usize, at: usize, out: *mut u8) -> u32;
    fn harbour_ship_shut(buffer: *const u8, len: usize, at: usize, out: *mut u8) -> u32;
    fn harbour_ship_maybe(buffer: *const u8, len: usize, at: usize, out: *mut i32) -> u32;
    fn harbour_ship_photo(buffer: *const u8, len: usize, at: usize, out: *mut SpanRef) -> u32;
    fn harbour_ship_names(buffer: *const u8, len: usize, at: usize, out: *mut SpanRef) -> u32;
    fn harbour_ship_mate(buffer: *const u8, len: usize, at: usize, out: *mut usize) -> u32;
    fn harbour_ship_consorts(buffer: *const u8, len: usize, at: usize, out: *mut SpanRef) -> u32;
    fn harbour_ship_kinds(buffer: *const u8, len: usize, at: usize, out: *mut SpanRef) -> u32;
    fn harbour_ship_owner(buffer: *const u8, len: usize, at: usize, out: *mut MemberRef) -> u32;
    fn harbour_ship_shares(buffer: *const u8, len: usize, at: usize, index: usize, out: *mut MemberRef) -> u32;
    fn harbour_ship_tall(buffer: *const u8, len: usize, at: usize, out: *mut i64) -> u32;
    fn harbour_ship_temps(buffer: *const u8, len: usize, at: usize, out: *mut SpanRef) -> u32;
    fn harbour_ship_deltas(buffer: *const u8, len: usize, at: usize, out: *mut SpanRef) -> u32;
    fn harbour_ship_fix(buffer: *const u8, len: usize, at: usize, out: *mut Fix) -> u32;
    fn harbour_ship_which(buffer: *const u8, len: usize, at: usize, out: *mut Kind) -> u32;
    fn harbour_ship_flags(buffer: *const u8, len: usize, at: usize, out: *mut SpanRef) -> u32;
    fn harbour_port_owner(buffer: *const u8, len: usize, at: usize, out: *mut MemberRef) -> u32;
    fn harbour_port_ships(buffer: *const u8, len: usize, at: usize, out: *mut SpanRef) -> u32;
    fn harbour_port_berths(buffer: *const u8, len: usize, at: usize, out: *mut SpanRef) -> u32;
    fn harbour_port_shares(buffer: *const u8, len: usize, at: usize, index: usize, out: *mut MemberRef) -> u32;
    fn harbour_port_soundings(buffer: *const u8, len: usize, at: usize, out: *mut SpanRef) -> u32;
    fn harbour_port_chart(buffer: *const u8, len: usize, at: usize, out: *mut SpanRef) -> u32;
    fn harbour_port_gauge(buffer: *const u8, len: usize, at: usize, out: *mut Gauge) -> u32;
    fn harbour_port_hoisted(buffer: *const u8, len: usize, at: usize, out: *mut Signal) -> u32;
    fn harbour_manifest_number(buffer: *const u8, len: usize, at: usize, out: *mut u64) -> u32;
    fn harbour_manifest_issued(buffer: *const u8, len: usize, at: usize, out: *mut i64) -> u32;
    fn harbour_manifest_weight(buffer: *const u8, len: usize, at: usize, out: *mut f64) -> u32;
    fn harbour_manifest_worth(buffer: *const u8, len: usize, at: usize, out: *mut f32) -> u32;
    fn harbour_manifest_boxes(buffer: *const u8, len: usize, at: usize, out: *mut u32) -> u32;
    fn harbour_manifest_debt(buffer: *const u8, len: usize, at: usize, out: *mut i32) -> u32;
    fn harbour_manifest_pages(buffer: *const u8, len: usize, at: usize, out: *mut u16) -> u32;
    fn harbour_manifest_shift(buffer: *const u8, len: usize, at: usize, out: *mut i16) -> u32;
    fn harbour_manifest_tier(buffer: *const u8, len: usize, at: usize, out: *mut u8) -> u32;
    fn harbour_manifest_lean(buffer: *const u8, len: usize, at: usize, out: *mut i8) -> u32;
    fn harbour_manifest_sealed(buffer: *const u8, len: usize, at: usize, out: *mut u8) -> u32;
    fn harbour_manifest_opened(buffer: *const u8, len: usize, at: usize, out: *mut u8) -> u32;
    fn harbour_manifest_kind(buffer: *const u8, len: usize, at: usize, out: *mut Kind) -> u32;
    fn harbour_manifest_level(buffer: *const u8, len: usize, at: usize, out: *mut Level) -> u32;
    fn harbour_manifest_needs(buffer: *const u8, len: usize, at: usize, out: *mut Needs) -> u32;
    fn harbour_manifest_signal(buffer: *const u8, len: usize, at: usize, out: *mut Signal) -> u32;
    fn harbour_manifest_rank(buffer: *const u8, len: usize, at: usize, out: *mut u64) -> u32;
    fn harbour_manifest_margin(buffer: *const u8, len: usize, at: usize, out: *mut f64) -> u32;
    fn harbour_manifest_dues(buffer: *const u8, len: usize, at: usize, out: *mut i32) -> u32;
    fn harbour_manifest_paid(buffer: *const u8, len: usize, at: usize, out: *mut u8) -> u32;
    fn harbour_manifest_grade(buffer: *const u8, len: usize, at: usize, out: *mut Kind) -> u32;
    fn harbour_manifest_berth(buffer: *const u8, len: usize, at: usize, out: *mut Pos) -> u32;
    fn harbour_manifest_gauge(buffer: *const u8, len: usize, at: usize, out: *mut Gauge) -> u32;
    fn harbour_manifest_title(buffer: *const u8, len: usize, at: usize, out: *mut SpanRef) -> u32;
    fn harbour_manifest_note(buffer: *const u8, len: usize, at: usize, out: *mut SpanRef) -> u32;
    fn harbour_manifest_scan(buffer: *const u8, len: usize, at: usize, out: *mut SpanRef) -> u32;
    fn harbour_manifest_stamp(buffer: *const u8, len: usize, at: usize, out: *mut SpanRef) -> u32;
    fn harbour_manifest_weights(buffer: *const u8, len: usize, at: usize, out: *mut SpanRef) -> u32;
    fn harbour_manifest_counts(buffer: *const u8, len: usize, at: usize, out: *mut SpanRef) -> u32;
    fn harbour_manifest_offsets(buffer: *const u8, len: usize, at: usize, out: *mut SpanRef) -> u32;
    fn harbour_manifest_marks(buffer: *const u8, len: usize, at: usize, out: *mut SpanRef) -> u32;
    fn harbour_manifest_kinds(buffer: *const u8, len: usize, at: usize, out: *mut SpanRef) -> u32;
    fn harbour_manifest_track(buffer: *const u8, len: usize, at: usize, out: *mut SpanRef) -> u32;
    fn harbour_manifest_labels(buffer: *const u8, len: usize, at: usize, out: *mut SpanRef) -> u32;
    fn harbour_manifest_holders(buffer: *const u8, len: usize, at: usize, out: *mut SpanRef) -> u32;
    fn harbour_manifest_ship(buffer: *const u8, len: usize, at: usize, out: *mut usize) -> u32;
    fn harbour_manifest_next(buffer: *const u8, len: usize, at: usize, out: *mut usize) -> u32;
    fn harbour_manifest_persons(buffer: *const u8, len: usize, at: usize, out: *mut SpanRef) -> u32;
    fn harbour_manifest_parts(buffer: *const u8, len: usize, at: usize, out: *mut SpanRef) -> u32;
    fn harbour_manifest_owner(buffer: *const u8, len: usize, at: usize, out: *mut MemberRef) -> u32;
    fn harbour_manifest_payer(buffer: *const u8, len: usize, at: usize, out: *mut MemberRef) -> u32;
    fn harbour_manifest_owners(buffer: *const u8, len: usize, at: usize, index: usize, out: *mut MemberRef) -> u32;
    fn harbour_origin_host(buffer: *const u8, len: usize, at: usize, out: *mut SpanRef) -> u32;
    fn harbour_origin_port(buffer: *const u8, len: usize, at: usize, out: *mut u16) -> u32;
    fn harbour_entry_at(buffer: *const u8, len: usize, at: usize, out: *mut u64) -> u32;
    fn harbour_entry_text(buffer: *const u8, len: usize, at: usize, out: *mut SpanRef) -> u32;
    fn harbour_entry_origin(buffer: *const u8, len: usize, at: usize, out: *mut usize) -> u32;
    fn harbour_entry_cause(buffer: *const u8, len: usize, at: usize, out: *mut MemberRef) -> u32;
    fn harbour_entry_parents(buffer: *const u8, len: usize, at: usize, out: *mut SpanRef) -> u32;
}
