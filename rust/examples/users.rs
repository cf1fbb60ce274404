use iddqd_proved::{InsertError, Keyed};

fn main() -> Result<(), Box<dyn std::error::Error>> {
    let mut users = Keyed::new(1, 2)?;
    let ada = users.insert(b"ada", 1815, 100)?;
    users.insert(b"alan", 1912, 200)?;
    let duplicate = InsertError::Duplicate { first: Some(ada), second: None };
    assert_eq!(users.insert(b"ada", 1900, 300), Err(duplicate));
    println!("of 1912: {:?}", users.find2(1912));
    Ok(())
}
