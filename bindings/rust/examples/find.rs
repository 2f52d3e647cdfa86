use phonenumber_proved::{Database, Region, Type};

fn main() -> Result<(), Box<dyn std::error::Error>> {
    let (world, text) = (Database::world()?, "Ring 03-331 6005, or +1 650 253 0000");
    for found in world.find(Region::NZ, text)? {
        println!("{} {}", &text[found.place], world.dialled_from(Region::DE, &found.number)?);
    } // 03-331 6005 00 64 3 331 6005
    let example = world.example(Region::DE, Type::Mobile)?.ok_or("there is none")?;
    println!("{example} {:?}", world.compare(example.to_string(), "01512 3456789")?);
    Ok(()) // +4915123456789 National
}
