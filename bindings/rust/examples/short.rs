use phonenumber_proved::{Database, Mode, Region};

fn main() -> Result<(), Box<dyn std::error::Error>> {
    let world = Database::world()?;
    let number = world.parse(Region::NZ, "03-331 6005")?;
    println!("{number} {}", world.format(&number).mode(Mode::National)); // +6433316005 03 331 6005
    let (kind, region) = (world.number_type(&number)?, world.region(&number)?);
    println!("{kind:?} {region:?} {}", world.is_valid(&number)?); // FixedLine Some(NZ) true
    Ok(())
}
