//! The lease time and the routers of a message on standard input, by the crate `dhcpopt`.

use dhcpopt::{data, lookup, AddressReader, Content, Field, Found};
use std::io::Read;

fn main() {
    let mut message = Vec::new();
    std::io::stdin().read_to_end(&mut message).expect("a message");
    let every_code = [u64::MAX; 4];
    match lookup(&message, every_code, 51) {
        Ok(Some(Found { origin, content: Content::Unsigned32(seconds) })) => {
            let field = match origin.field {
                Field::Options => "options",
                Field::File => "file",
                Field::Sname => "sname",
            };
            println!("lease time: {} s, in {}", seconds, field);
        }
        Ok(Some(_)) => println!("a broken lease time"),
        Ok(None) => println!("no lease time"),
        Err(refusal) => println!("the message is refused: {} at {}", refusal.rule.number(), refusal.place),
    }
    for address in (AddressReader { list: data(&message, 3), at: 0 }) {
        println!("router: {}", std::net::Ipv4Addr::from(address));
    }
}
