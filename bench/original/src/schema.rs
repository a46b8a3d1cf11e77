//! The tables that are written and read, in the form of what planus-codegen prints.
use planus::errors::ErrorKind;
use planus::table_reader::Table;
use planus::table_writer::TableWriter;
use planus::*;

pub struct Weapon;

impl Weapon {
    pub fn create(builder: &mut Builder, name: impl WriteAsOptional<Offset<str>>, damage: impl WriteAsDefault<i16, i16>) -> Offset<Self> {
        let name = name.prepare(builder);
        let damage = damage.prepare(builder, &0);
        let mut writer: TableWriter<8> = Default::default();
        if name.is_some() {
            writer.write_entry::<Offset<str>>(0);
        }
        if damage.is_some() {
            writer.write_entry::<i16>(1);
        }
        unsafe {
            writer.finish(builder, |object| {
                if let Some(name) = name {
                    object.write::<_, _, 4>(&name);
                }
                if let Some(damage) = damage {
                    object.write::<_, _, 2>(&damage);
                }
            });
        }
        builder.current_offset()
    }
}

pub struct Equipment;

impl Equipment {
    #[inline]
    pub fn create_weapon(builder: &mut Builder, value: impl WriteAsOffset<Weapon>) -> UnionOffset<Self> {
        UnionOffset::new(1, value.prepare(builder).downcast())
    }
}

pub struct Monster;

impl Monster {
    pub fn create(
        builder: &mut Builder,
        hp: impl WriteAsDefault<i16, i16>,
        name: impl WriteAs<Offset<str>>,
        inventory: impl WriteAsOptional<Offset<[u8]>>,
        weapons: impl WriteAsOptional<Offset<[Offset<Weapon>]>>,
        equipped: impl WriteAsOptionalUnion<Equipment>,
        loot: impl WriteAsOptionalUnionVector<Equipment>,
    ) -> Offset<Self> {
        let hp = hp.prepare(builder, &100);
        let name = name.prepare(builder);
        let inventory = inventory.prepare(builder);
        let weapons = weapons.prepare(builder);
        let equipped = equipped.prepare(builder);
        let loot = loot.prepare(builder);
        let mut writer: TableWriter<20> = Default::default();
        writer.write_entry::<Offset<str>>(1);
        if inventory.is_some() {
            writer.write_entry::<Offset<[u8]>>(2);
        }
        if weapons.is_some() {
            writer.write_entry::<Offset<[Offset<Weapon>]>>(3);
        }
        if equipped.is_some() {
            writer.write_entry::<Offset<Equipment>>(5);
        }
        if loot.is_some() {
            writer.write_entry::<Offset<[u8]>>(6);
            writer.write_entry::<Offset<[Offset<()>]>>(7);
        }
        if hp.is_some() {
            writer.write_entry::<i16>(0);
        }
        if equipped.is_some() {
            writer.write_entry::<u8>(4);
        }
        unsafe {
            writer.finish(builder, |object| {
                object.write::<_, _, 4>(&name);
                if let Some(inventory) = inventory {
                    object.write::<_, _, 4>(&inventory);
                }
                if let Some(weapons) = weapons {
                    object.write::<_, _, 4>(&weapons);
                }
                if let Some(equipped) = &equipped {
                    object.write::<_, _, 4>(&equipped.offset());
                }
                if let Some(loot) = &loot {
                    object.write::<_, _, 4>(&loot.tags_offset());
                    object.write::<_, _, 4>(&loot.values_offset());
                }
                if let Some(hp) = hp {
                    object.write::<_, _, 2>(&hp);
                }
                if let Some(equipped) = &equipped {
                    object.write::<_, _, 1>(&equipped.tag());
                }
            });
        }
        builder.current_offset()
    }
}

#[derive(Copy, Clone)]
pub struct WeaponRef<'a>(Table<'a>);

impl<'a> WeaponRef<'a> {
    #[inline]
    pub fn name(&self) -> Result<Option<&'a str>> {
        self.0.access(0, "Weapon", "name")
    }
    #[inline]
    pub fn damage(&self) -> Result<i16> {
        Ok(self.0.access(1, "Weapon", "damage")?.unwrap_or(0))
    }
}

impl<'a> TableRead<'a> for WeaponRef<'a> {
    #[inline]
    fn from_buffer(buffer: SliceWithStartOffset<'a>, offset: usize) -> core::result::Result<Self, ErrorKind> {
        Ok(Self(Table::from_buffer(buffer, offset)?))
    }
}

impl<'a> VectorReadInner<'a> for WeaponRef<'a> {
    type Error = Error;
    const STRIDE: usize = 4;
    unsafe fn from_buffer(buffer: SliceWithStartOffset<'a>, offset: usize) -> Result<Self> {
        TableRead::from_buffer(buffer, offset).map_err(|kind: ErrorKind| kind.with_error_location("[Weapon]", "get", buffer.offset_from_start))
    }
}

#[derive(Copy, Clone)]
pub enum EquipmentRef<'a> {
    Weapon(WeaponRef<'a>),
}

impl<'a> TableReadUnion<'a> for EquipmentRef<'a> {
    fn from_buffer(buffer: SliceWithStartOffset<'a>, tag: u8, offset: usize) -> core::result::Result<Self, ErrorKind> {
        match tag {
            1 => Ok(Self::Weapon(TableRead::from_buffer(buffer, offset)?)),
            _ => Err(ErrorKind::UnknownUnionTag { tag }),
        }
    }
}

impl<'a> VectorReadUnion<'a> for EquipmentRef<'a> {
    const VECTOR_NAME: &'static str = "[Equipment]";
}

#[derive(Copy, Clone)]
pub struct MonsterRef<'a>(Table<'a>);

impl<'a> MonsterRef<'a> {
    #[inline]
    pub fn hp(&self) -> Result<i16> {
        Ok(self.0.access(0, "Monster", "hp")?.unwrap_or(100))
    }
    #[inline]
    pub fn name(&self) -> Result<&'a str> {
        self.0.access_required(1, "Monster", "name")
    }
    #[inline]
    pub fn inventory(&self) -> Result<Option<&'a [u8]>> {
        self.0.access(2, "Monster", "inventory")
    }
    #[inline]
    pub fn weapons(&self) -> Result<Option<Vector<'a, Result<WeaponRef<'a>>>>> {
        self.0.access(3, "Monster", "weapons")
    }
    #[inline]
    pub fn equipped(&self) -> Result<Option<EquipmentRef<'a>>> {
        self.0.access_union(4, "Monster", "equipped")
    }
    #[inline]
    pub fn loot(&self) -> Result<Option<UnionVector<'a, EquipmentRef<'a>>>> {
        self.0.access_union_vector(6, "Monster", "loot")
    }
}

impl<'a> TableRead<'a> for MonsterRef<'a> {
    #[inline]
    fn from_buffer(buffer: SliceWithStartOffset<'a>, offset: usize) -> core::result::Result<Self, ErrorKind> {
        Ok(Self(Table::from_buffer(buffer, offset)?))
    }
}
