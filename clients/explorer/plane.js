// The moves of the plane and of the Poincaré disk, as clients/shapes/geometry.py has them.
//
// A move is [ar, ai, br, bi]: two complex numbers a and b. In the disk it takes z to
// (a z + b) / (conj(b) z + conj(a)), in the plane to a z + b. A point is [x, y].

const times = (ar, ai, br, bi) => [ar * br - ai * bi, ar * bi + ai * br];

export class Plane {
  constructor(curved) {
    this.curved = curved;
    this.still = [1, 0, 0, 0];
  }

  turn(angle) {
    const half = this.curved ? angle / 2 : angle;
    return [Math.cos(half), Math.sin(half), 0, 0];
  }

  // First m, then n as it is seen from there.
  then(m, n) {
    const a = times(m[0], m[1], n[0], n[1]);
    const b = times(m[0], m[1], n[2], n[3]);
    if (!this.curved) return [a[0], a[1], b[0] + m[2], b[1] + m[3]];
    const c = times(m[2], m[3], n[2], -n[3]);
    const d = times(m[2], m[3], n[0], -n[1]);
    const sum = [a[0] + c[0], a[1] + c[1], b[0] + d[0], b[1] + d[1]];
    const size = Math.sqrt(sum[0] ** 2 + sum[1] ** 2 - sum[2] ** 2 - sum[3] ** 2);
    return sum.map((part) => part / size);
  }

  back(m) {
    if (this.curved) return [m[0], -m[1], -m[2], -m[3]];
    const b = times(m[0], -m[1], m[2], m[3]);
    return [m[0], -m[1], -b[0], -b[1]];
  }

  place(m, [x, y]) {
    const [ux, uy] = times(m[0], m[1], x, y);
    const top = [ux + m[2], uy + m[3]];
    if (!this.curved) return top;
    const [vx, vy] = times(m[2], -m[3], x, y);
    const under = [vx + m[0], vy - m[1]];
    const size = under[0] ** 2 + under[1] ** 2;
    const [x2, y2] = times(top[0], top[1], under[0], -under[1]);
    return [x2 / size, y2 / size];
  }

  // The move that takes the origin to a point without a turn.
  shift([x, y]) {
    if (!this.curved) return [1, 0, x, y];
    const size = Math.sqrt(1 - x * x - y * y);
    return [1 / size, 0, x / size, y / size];
  }

  // A part of a move: all of it where part is 1, none where it is 0.
  part(m, part) {
    const to = this.place(m, [0, 0]);
    const turned = this.then(this.back(this.shift(to)), m);
    let angle = Math.atan2(turned[1], turned[0]) * (this.curved ? 2 : 1);
    if (angle > Math.PI) angle -= 2 * Math.PI;
    if (angle < -Math.PI) angle += 2 * Math.PI;
    const far = Math.hypot(...to);
    const near = this.curved ? Math.tanh(part * Math.atanh(Math.min(far, 1 - 1e-12))) : part * far;
    const share = far ? near / far : 0;
    return this.then(this.shift([to[0] * share, to[1] * share]), this.turn(part * angle));
  }

  // Centre and radius of the circle in which the line through p and q lies; null where straight.
  circle([px, py], [qx, qy]) {
    const cross = 2 * (px * qy - py * qx);
    if (!this.curved || Math.abs(cross) < 1e-6) return null;
    const up = 1 + px * px + py * py;
    const uq = 1 + qx * qx + qy * qy;
    const x = (qy * up - py * uq) / cross;
    const y = (px * uq - qx * up) / cross;
    return { x, y, radius: Math.sqrt(Math.max(0, x * x + y * y - 1)) };
  }
}
