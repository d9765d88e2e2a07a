//! `hops IMAGE ROUTES`: builds the graph of a sequence image, adds the routes of
//! a route image, and prints the hops as the chart does: source, end block or
//! `leave`, tags.

use std::error::Error;
use std::{env, fs};

use foldzine::{Graph, HopBuffer};

fn main() -> Result<(), Box<dyn Error>> {
    let names: Vec<String> = env::args().skip(1).collect();
    let [image, routes] = &names[..] else {
        return Err("hops IMAGE ROUTES".into());
    };
    let mut graph = Graph::build(&fs::read(image)?)?;
    let mut buffer = HopBuffer::new();
    let routes = fs::read(routes)?;
    let hops = graph.add_routes(&routes, &mut buffer)?;
    let (blocks, edges) = (graph.blocks().len(), graph.edges().len());
    println!("built {blocks} blocks, {edges} edges, {} reached", graph.reached());
    for hop in hops.iter() {
        let end = hop.end.map_or("leave".to_string(), |block| block.to_string());
        for list in hop.lists() {
            let tags: Vec<String> = list.map(|tag| tag.to_string()).collect();
            let tags = if tags.is_empty() { "-".to_string() } else { tags.join(" ") };
            println!("hop {} {end} {tags}", hop.source);
        }
    }
    Ok(())
}
