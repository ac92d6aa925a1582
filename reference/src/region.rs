//! Regions: the coordinated and the flow-based method, and the loss layer over either.

use std::collections::BTreeSet;

use crate::file::{Border, Method, Network};
use crate::refusal::{refuse_if, Refusal};
use crate::units::*;

/// A sound region. Refusals 8 and 9 are the answer of building one from bad numbers.
#[derive(Clone, Debug)]
pub struct Region {
    pub zones: Vec<Zone>,
    pub lines: Vec<Line>,
    pub hub_price: Option<Price>,
}

#[derive(Clone, Copy, Debug)]
pub struct Zone {
    pub price: Price,
    pub net_position: NetPosition,
}

#[derive(Clone, Copy, Debug)]
pub struct Line {
    pub near: ZoneNumber,
    pub far: FarEnd,
    pub flow: Flow,
    pub near_price: Price,
    pub far_price: Price,
    pub spread: Spread,
}

#[derive(Clone, Copy, Debug, PartialEq, Eq)]
pub enum FarEnd {
    Zone(ZoneNumber),
    Hub,
}

impl Region {
    /// The region of the network's method, with one price for each zone.
    pub fn build(network: &Network, prices: &[Price]) -> Result<Region, Refusal> {
        assert_eq!(prices.len(), network.net_positions.len());
        check_positions(network)?;
        Ok(match network.method {
            Method::Coordinated => coordinated(network, prices),
            Method::FlowBased => flow_based(network, prices),
        })
    }

    /// The loss layer: the same region with reduced spreads. A missing loss is 0.
    pub fn under_losses(mut self, losses: &[Loss]) -> Region {
        for (line, loss) in self.lines.iter_mut().zip(losses) {
            line.spread = reduced_spread(line, *loss);
        }
        self
    }
}

/// The verdict: refusal 8, then refusal 9.
fn check_positions(network: &Network) -> Result<(), Refusal> {
    let positions = &network.net_positions;
    let sum: NetPosition = positions.iter().sum();
    let magnitudes: NetPosition = positions.iter().map(|position| position.abs()).sum();
    let mismatch = network.method == Method::Coordinated
        && (1..=positions.len()).any(|zone| positions[zone - 1] != net_capacity(network, zone));
    refuse_if(sum != 0 || mismatch, 8)?;
    refuse_if(magnitudes > LARGEST_POSITION_SUM, 9)
}

/// Capacities that leave the zone less those that enter it.
fn net_capacity(network: &Network, zone: ZoneNumber) -> Capacity {
    net_leaving(&network.borders, zone, |border| network.borders[border].capacity)
}

/// The sum over the borders with this near zone less the sum over those with this far zone.
fn net_leaving(borders: &[Border], zone: ZoneNumber, value: impl Fn(usize) -> i128) -> i128 {
    let side = |border: &Border| {
        if border.near == zone {
            1
        } else if border.far == zone {
            -1
        } else {
            0
        }
    };
    borders.iter().enumerate().map(|(index, border)| side(border) * value(index)).sum()
}

fn coordinated(network: &Network, prices: &[Price]) -> Region {
    let line = |border: &Border| border_line(border, border.capacity * FLOW_SCALE, prices);
    Region {
        zones: zones(network, prices),
        lines: network.borders.iter().map(line).collect(),
        hub_price: None,
    }
}

fn flow_based(network: &Network, prices: &[Price]) -> Region {
    let border_flows: Vec<Flow> =
        (1..=network.borders.len()).map(|border| border_flow(network, border)).collect();
    let external_flows: Vec<Flow> =
        (1..=prices.len()).map(|zone| external_flow(network, &border_flows, zone)).collect();
    let hub_price = hub_price(prices, &external_flows);

    let borders = network.borders.iter().zip(&border_flows);
    let mut lines: Vec<Line> =
        borders.map(|(border, flow)| border_line(border, *flow, prices)).collect();
    for (index, flow) in external_flows.iter().enumerate() {
        lines.push(external_line(index + 1, *flow, prices[index], hub_price));
    }
    Region { zones: zones(network, prices), lines, hub_price }
}

fn zones(network: &Network, prices: &[Price]) -> Vec<Zone> {
    let pairs = prices.iter().zip(&network.net_positions);
    pairs.map(|(price, net_position)| Zone { price: *price, net_position: *net_position }).collect()
}

fn border_line(border: &Border, flow: Flow, prices: &[Price]) -> Line {
    let near_price = prices[border.near - 1];
    let far_price = prices[border.far - 1];
    Line {
        near: border.near,
        far: FarEnd::Zone(border.far),
        flow,
        near_price,
        far_price,
        spread: far_price - near_price,
    }
}

/// Without a hub price the far end has the zone's own price.
fn external_line(zone: ZoneNumber, flow: Flow, price: Price, hub_price: Option<Price>) -> Line {
    let far_price = hub_price.unwrap_or(price);
    Line {
        near: zone,
        far: FarEnd::Hub,
        flow,
        near_price: price,
        far_price,
        spread: far_price - price,
    }
}

/// Over all legs of the border, whatever their contribution, and all zones of the region.
fn border_flow(network: &Network, border: LineNumber) -> Flow {
    let of_border = |leg: &LegNumber| network.line_of_leg[leg - 1] == border;
    (1..=network.line_of_leg.len()).filter(of_border).map(|leg| leg_flow(network, leg)).sum()
}

fn leg_flow(network: &Network, leg: LegNumber) -> Flow {
    let factor = |zone: ZoneNumber| network.factors.get(&(leg, zone)).copied().unwrap_or(0);
    let positions = (1..).zip(&network.net_positions);
    positions.map(|(zone, position)| factor(zone) * position).sum()
}

/// What the zone exports and its borders do not carry away.
fn external_flow(network: &Network, border_flows: &[Flow], zone: ZoneNumber) -> Flow {
    let carried = net_leaving(&network.borders, zone, |border| border_flows[border]);
    network.net_positions[zone - 1] * FLOW_SCALE - carried
}

/// The middle of the cheapest prices among the zones with external flow; absent if none has any.
pub fn hub_price(prices: &[Price], external_flows: &[Flow]) -> Option<Price> {
    let cost = |hub: Price| -> i128 {
        let zones = prices.iter().zip(external_flows);
        zones.map(|(price, flow)| (price - hub).abs() * flow.abs()).sum()
    };
    let candidates: BTreeSet<Price> = prices
        .iter()
        .zip(external_flows)
        .filter(|(_, flow)| **flow != 0)
        .map(|(price, _)| *price)
        .collect();
    let least = candidates.iter().map(|price| cost(*price)).min()?;
    let cheapest = || candidates.iter().filter(|price| cost(**price) == least);
    let (low, high) = (cheapest().min()?, cheapest().max()?);
    Some(rounded_down(low + high, 2))
}

/// The spread moved toward 0, and not past it, by the loss at the end that the flow leaves.
pub fn reduced_spread(line: &Line, loss: Loss) -> Spread {
    let leaving_price = if line.flow >= 0 { line.near_price } else { line.far_price };
    let reduction = rounded_down(loss * leaving_price.abs(), WHOLE);
    let left = (line.spread.abs() - reduction).max(0);
    line.spread.signum() * left
}
