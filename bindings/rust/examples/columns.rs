use phonenumber_proved::{Column, Database, Error, Mode, Texts};

fn main() -> Result<(), Error> {
    let (world, offsets, bytes) = (Database::world()?, [0, 11, 18], b"03-331 6005call me");
    let (texts, hint) = (Texts::new(&offsets, bytes), Texts::one_hint("NZ"));
    let told = world.columns(&texts, &hint, &[Column::E164, Column::Type, Column::Refusal])?;
    assert_eq!(told.text(Mode::E164, 0), Some("+6433316005"));
    assert_eq!(told.refusal(1), Some(Error::NoNumber));
    Ok(())
}
