fn moved(index: u32, old: particle::Particle) {
    if index < particle::count {
        particle::particles[index] = particle::Particle(old.position + old.speed, old.speed);
    }
}
