//! Where the images of a run come from. Each image is fixed by its number, and random ones by the seed too.
use crate::decode::Memory;
use crate::generator::Scale;
use crate::lists::{self, Lists};
use crate::random::Random;
use crate::{breaches, catalogue, chains, damage, generator, limits, operands, orders, sealable};

/// A numbered list of images.
pub struct Source {
    pub name: &'static str,
    pub count: u64,
    /// The memory in which its images are put.
    pub memory: Memory,
    images: Images,
}

enum Images {
    Short,
    Lists(Lists),
    Listed(Vec<Vec<u8>>),
    Random { seed: u64, scale: Scale },
    Damaged { seed: u64, scale: Scale },
    Sealable { seed: u64 },
    Sealed { seed: u64 },
}

impl Source {
    /// All images of up to two bytes.
    pub fn short() -> Self {
        Source {
            name: "two bytes",
            count: lists::SHORT,
            memory: Memory::SMALL,
            images: Images::Short,
        }
    }

    /// All lists of up to three small records.
    pub fn lists() -> Self {
        let lists = Lists::new();
        Source {
            name: "three",
            count: lists.count(),
            memory: Memory::SMALL,
            images: Images::Lists(lists),
        }
    }

    pub fn catalogue() -> Self {
        Source::listed("catalogue", catalogue::images())
    }

    pub fn orders() -> Self {
        Source::listed("orders", orders::images())
    }

    pub fn breaches() -> Self {
        Source::listed("breaches", breaches::images())
    }

    pub fn limits() -> Self {
        Source::listed("limits", limits::images(Memory::SMALL))
    }

    /// The limits of the larger memory.
    pub fn large() -> Self {
        Source {
            memory: Memory::LARGE,
            ..Source::listed("large", limits::images(Memory::LARGE))
        }
    }

    pub fn operands() -> Self {
        Source::listed("operands", operands::images())
    }

    pub fn chains() -> Self {
        Source::listed("deep", chains::images(Memory::SMALL))
    }

    /// The chains of the larger memory.
    pub fn large_chains() -> Self {
        Source {
            memory: Memory::LARGE,
            ..Source::listed("large deep", chains::images(Memory::LARGE))
        }
    }

    pub fn listed(name: &'static str, images: Vec<Vec<u8>>) -> Self {
        Source {
            name,
            count: images.len() as u64,
            memory: Memory::SMALL,
            images: Images::Listed(images),
        }
    }

    pub fn random(seed: u64, scale: Scale, count: u64) -> Self {
        Source {
            name: "random",
            count,
            memory: Memory::SMALL,
            images: Images::Random { seed, scale },
        }
    }

    /// Random images with changes, other than those of `random`.
    pub fn damaged(seed: u64, scale: Scale, count: u64) -> Self {
        Source {
            name: "damaged",
            count,
            memory: Memory::SMALL,
            images: Images::Damaged { seed: !seed, scale },
        }
    }

    /// Random images that sealing accepts or nearly so.
    pub fn sealable(seed: u64, count: u64) -> Self {
        Source {
            name: "sealable",
            count,
            memory: Memory::SMALL,
            images: Images::Sealable {
                seed: seed.rotate_left(32),
            },
        }
    }

    /// Random images that sealing mostly accepts, without changes.
    pub fn sealed(seed: u64, count: u64) -> Self {
        Source {
            name: "sealed",
            count,
            memory: Memory::SMALL,
            images: Images::Sealed {
                seed: !seed.rotate_left(32),
            },
        }
    }

    pub fn image(&self, number: u64) -> Vec<u8> {
        match &self.images {
            Images::Short => lists::short(number),
            Images::Lists(lists) => lists.image(number),
            Images::Listed(images) => images[number as usize].clone(),
            Images::Random { seed, scale } => {
                let records = generator::records(&mut Random::new(*seed, number), *scale);
                records.concat()
            }
            Images::Damaged { seed, scale } => {
                let mut random = Random::new(*seed, number);
                let records = generator::records(&mut random, *scale);
                damage::damaged(records, &mut random)
            }
            Images::Sealable { seed } => sealable::image(&mut Random::new(*seed, number)),
            Images::Sealed { seed } => {
                generator::sealable_records(&mut Random::new(*seed, number)).concat()
            }
        }
    }
}
