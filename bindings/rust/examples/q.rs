fn main() -> Result<(), Box<dyn std::error::Error>> {
    let mut field = conductor::Conductor::new();
    field.read(b"plan=1\nagents=2\nname=east\nstops=4\ngo=1@0\ngo=6@1\ngo=5@2\ngo=2@3\nname=west\nstops=3\ngo=3@0\ngo=5@4\ngo=4@5\nend=plan\n")?;
    println!("cost {}; {}", field.cost()?, field.grant(1).unwrap_err());
    Ok(())
}
