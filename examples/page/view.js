// Draws one world by WebGL2: floor, sphere, cloth, shadows, and a dot for what is held.
import { SIDE, SPHERE, METRE } from "./scene.js";

const VERTEX = `#version 300 es
in vec3 at; in vec3 normal; in vec2 uv;
uniform mat4 eye, light;
out vec3 place, n; out vec2 weave; out vec4 lit;
void main() { place = at; n = normal; weave = uv; lit = light * vec4(at, 1.0); gl_Position = eye * vec4(at, 1.0); }`;

const FRAGMENT = `#version 300 es
precision highp float; precision highp sampler2DShadow;
in vec3 place, n; in vec2 weave; in vec4 lit;
uniform sampler2DShadow shadow;
uniform int kind; uniform vec3 sun, camera, ground, sky, ball, front, back, thread; uniform float dark;
out vec4 colour;
float seen(float slope) {
    vec3 p = lit.xyz / lit.w * 0.5 + 0.5;
    if (any(lessThan(p, vec3(0.0))) || any(greaterThan(p, vec3(1.0)))) return 1.0;
    p.z -= 0.0012 + 0.004 * slope;
    const float e = 1.7 / 1024.0;
    float s = texture(shadow, p) * 2.0;
    s += texture(shadow, p + vec3(e, e * 0.4, 0)) + texture(shadow, p + vec3(-e, -e * 0.4, 0));
    s += texture(shadow, p + vec3(-e * 0.4, e, 0)) + texture(shadow, p + vec3(e * 0.4, -e, 0));
    return s / 6.0;
}
float line(vec2 p, float wide) { vec2 d = abs(fract(p - 0.5) - 0.5) / fwidth(p); return 1.0 - min(min(d.x, d.y) / wide, 1.0); }
void main() {
    vec3 to = normalize(camera - place), m = normalize(n);
    if (kind == 0) {
        float far = smoothstep(1.2, 4.6, length(place.xz - vec2(0.0, 0.4)));
        float s = seen(0.2);
        vec3 base = mix(ground, ground * mix(0.93, 1.28, dark), 0.8 * line(place.xz * 2.0, 1.3));
        vec2 d = place.xz - vec2(0.0, 0.946);
        float under = 1.0 - 0.42 * exp(-dot(d, d) * 6.0);
        colour = vec4(mix(base * mix(mix(0.80, 0.52, dark), 1.0, s) * under, sky, far), 1.0);
        return;
    }
    vec3 base = ball; float gloss = 0.35, sheen = 0.0;
    if (kind == 2) {
        bool facing = dot(m, to) > 0.0;
        if (!facing) m = -m;
        base = facing ? front : back;
        vec2 w = weave;
        float edge = min(min(w.x, w.y), min(31.0 - w.x, 31.0 - w.y)), soft = fwidth(edge) * 0.75;
        float band = smoothstep(1.1 - soft, 1.1 + soft, edge) - smoothstep(2.1 - soft, 2.1 + soft, edge);
        vec2 q = abs(fract((w - 3.5) / 4.0 - 0.5) - 0.5) * 4.0; vec2 f = fwidth(w);
        float inside = step(2.9, edge);
        float check = inside * max(1.0 - smoothstep(0.16 - f.x, 0.16 + f.x, q.x), 1.0 - smoothstep(0.16 - f.y, 0.16 + f.y, q.y));
        base = mix(base, thread, facing ? max(band, check * 0.8) : max(band, check * 0.8) * 0.45);
        gloss = 0.06; sheen = 0.32;
    }
    float l = dot(m, sun), s = seen(1.0 - clamp(abs(l), 0.0, 1.0));
    float key = max(l, 0.0) * s, wrap = kind == 2 ? 0.10 * max(0.0, 0.6 - l) : 0.0;
    vec3 below = ground * mix(kind == 1 ? 0.86 : 0.62, 1.5, dark);
    vec3 around = mix(below, vec3(0.70, 0.74, 0.80), m.y * 0.5 + 0.5) * (kind == 1 ? mix(0.95, 0.72, dark) : mix(0.60, 0.52, dark));
    vec3 shine = base * (around + wrap + key * vec3(1.05, 1.0, 0.92) * mix(kind == 1 ? 0.34 : 0.62, kind == 1 ? 0.5 : 0.74, dark));
    vec3 h = normalize(sun + to);
    shine += gloss * pow(max(dot(m, h), 0.0), 40.0) * s;
    shine += sheen * base * pow(1.0 - max(dot(m, to), 0.0), 3.0);
    colour = vec4(pow(shine, vec3(0.94)), 1.0);
}`;

const DEPTH = [`#version 300 es
in vec3 at; uniform mat4 light; void main() { gl_Position = light * vec4(at, 1.0); }`, `#version 300 es
precision mediump float; void main() {}`];

const DOTS = [`#version 300 es
in vec3 at; in vec4 tint; uniform mat4 eye; uniform float ratio; out vec4 shade;
void main() {
    gl_Position = eye * vec4(at, 1.0); gl_Position.z -= 0.03;
    gl_PointSize = tint.a * ratio; shade = vec4(tint.rgb, tint.a * ratio);
}`, `#version 300 es
precision mediump float; in vec4 shade; out vec4 colour;
void main() {
    float r = length(gl_PointCoord - 0.5) * shade.a, edge = shade.a * 0.5;
    float a = 1.0 - smoothstep(edge - 1.2, edge, r), core = 1.0 - smoothstep(edge * 0.68 - 0.8, edge * 0.68 + 0.4, r);
    colour = vec4(mix(vec3(1.0), shade.rgb, core), 1.0) * a;
}`];

const sub = (a, b) => [a[0] - b[0], a[1] - b[1], a[2] - b[2]];
const dot = (a, b) => a[0] * b[0] + a[1] * b[1] + a[2] * b[2];
const cross = (a, b) => [a[1] * b[2] - a[2] * b[1], a[2] * b[0] - a[0] * b[2], a[0] * b[1] - a[1] * b[0]];
const unit = a => {
    const l = Math.hypot(...a);
    return a.map(x => x / l);
};
function times(a, b) {
    const c = new Float32Array(16);
    for (let i = 0; i < 4; i++) for (let j = 0; j < 4; j++) for (let k = 0; k < 4; k++) c[j * 4 + i] += a[k * 4 + i] * b[j * 4 + k];
    return c;
}
function look(from, to) {
    const z = unit(sub(from, to)), x = unit(cross([0, 1, 0], z)), y = cross(z, x);
    return new Float32Array([
        x[0], y[0], z[0], 0, x[1], y[1], z[1], 0, x[2], y[2], z[2], 0, -dot(x, from), -dot(y, from), -dot(z, from), 1,
    ]);
}
function perspective(tall, aspect, near, far) {
    const f = 1 / Math.tan(tall / 2);
    const deep = near - far;
    return new Float32Array([f / aspect, 0, 0, 0, 0, f, 0, 0, 0, 0, (far + near) / deep, -1, 0, 0, 2 * far * near / deep, 0]);
}
function flat(w, near, far) {
    const deep = near - far;
    return new Float32Array([1 / w, 0, 0, 0, 0, 1 / w, 0, 0, 0, 0, 2 / deep, 0, 0, 0, (far + near) / deep, 1]);
}

function softly() {
    const gl = document.createElement("canvas").getContext("webgl2"), more = gl?.getExtension("WEBGL_debug_renderer_info");
    const name = more ? gl.getParameter(more.UNMASKED_RENDERER_WEBGL) : "";
    gl?.getExtension("WEBGL_lose_context")?.loseContext();
    return /swiftshader|llvmpipe|software/i.test(name) && !new URLSearchParams(location.search).has("fine");
}

const SUN = unit([-0.45, 1.0, 0.62]), CENTRE = [0, 0.95, 0.65];
const N = SIDE * SIDE;

const STRETCH = 0;

// Which links must live for each of a square's triangles.
function squaresOf(links) {
    const number = new Map(links.map(([a, b], l) => [a * N + b, l])), squares = [];
    for (let r = 0; r < SIDE - 1; r++) for (let c = 0; c < SIDE - 1; c++) {
        const a = r * SIDE + c, b = a + 1, d = a + SIDE, e = d + 1;
        const [ab, ad, be, de, ae, bd] = [[a, b], [a, d], [b, e], [d, e], [a, e], [b, d]].map(([i, j]) => number.get(i * N + j));
        squares.push({ a, b, d, e, ab, ad, be, de, ae, bd });
    }
    return squares;
}

export class View {
    constructor(canvas) {
        this.canvas = canvas;
        // Where a processor draws in place of a graphics card, as far as a name tells, and the address hasn't `fine`, the picture is
        // plainer.
        const probe = View.soft ??= softly();
        const gl = this.gl = canvas.getContext("webgl2", { antialias: !probe, alpha: false });
        if (!gl) throw new Error("no WebGL2");
        this.soft = probe;
        this.detail = probe ? 512 : 1024;
        this.main = this.program(VERTEX, FRAGMENT);
        this.depth = this.program(...DEPTH);
        this.dots = this.program(...DOTS);
        this.places = new Float32Array(N * 3);
        this.shown = new Float32Array(N * 3);
        this.error = new Float32Array(N * 3);
        this.normals = new Float32Array(N * 3);
        this.triangles = new Uint16Array((SIDE - 1) ** 2 * 6);
        this.triangleCount = 0;
        this.liveCount = -1;
        this.threads = new Uint16Array(SIDE * SIDE * 4);
        this.threadCount = 0;
        const uv = new Float32Array(N * 2);
        for (let i = 0; i < N; i++) {
            uv[2 * i] = i % SIDE;
            uv[2 * i + 1] = Math.floor(i / SIDE);
        }
        this.cloth = this.mesh(this.shown, this.normals, uv, this.triangles, gl.DYNAMIC_DRAW);
        this.ball = this.sphere();
        const corners = new Float32Array([-9, 0, -9, 9, 0, -9, -9, 0, 9, 9, 0, 9]);
        const up = new Float32Array([0, 1, 0, 0, 1, 0, 0, 1, 0, 0, 1, 0]);
        this.floor = this.mesh(corners, up, new Float32Array(8), new Uint16Array([0, 2, 1, 1, 2, 3]), gl.STATIC_DRAW);
        this.light = times(flat(2.3, 0.1, 8), look(CENTRE.map((x, k) => x + SUN[k] * 4), CENTRE));
        this.map = gl.createTexture();
        gl.bindTexture(gl.TEXTURE_2D, this.map);
        gl.texStorage2D(gl.TEXTURE_2D, 1, gl.DEPTH_COMPONENT24, this.detail, this.detail);
        gl.texParameteri(gl.TEXTURE_2D, gl.TEXTURE_COMPARE_MODE, gl.COMPARE_REF_TO_TEXTURE);
        for (const side of [gl.TEXTURE_MIN_FILTER, gl.TEXTURE_MAG_FILTER]) gl.texParameteri(gl.TEXTURE_2D, side, gl.LINEAR);
        for (const side of [gl.TEXTURE_WRAP_S, gl.TEXTURE_WRAP_T]) gl.texParameteri(gl.TEXTURE_2D, side, gl.CLAMP_TO_EDGE);
        this.into = gl.createFramebuffer();
        gl.bindFramebuffer(gl.FRAMEBUFFER, this.into);
        gl.framebufferTexture2D(gl.FRAMEBUFFER, gl.DEPTH_ATTACHMENT, gl.TEXTURE_2D, this.map, 0);
        gl.drawBuffers([gl.NONE]);
        gl.bindFramebuffer(gl.FRAMEBUFFER, null);
        this.dotBuffer = gl.createBuffer();
        this.dotArray = gl.createVertexArray();
        gl.bindVertexArray(this.dotArray);
        gl.bindBuffer(gl.ARRAY_BUFFER, this.dotBuffer);
        gl.enableVertexAttribArray(0);
        gl.vertexAttribPointer(0, 3, gl.FLOAT, false, 28, 0);
        gl.enableVertexAttribArray(1);
        gl.vertexAttribPointer(1, 4, gl.FLOAT, false, 28, 12);
        gl.bindVertexArray(null);
        gl.enable(gl.DEPTH_TEST);
        this.resize();
    }

    program(vertex, fragment) {
        const gl = this.gl, p = gl.createProgram();
        for (const [kind, text] of [[gl.VERTEX_SHADER, vertex], [gl.FRAGMENT_SHADER, fragment]]) {
            const s = gl.createShader(kind);
            gl.shaderSource(s, text);
            gl.compileShader(s);
            if (!gl.getShaderParameter(s, gl.COMPILE_STATUS)) throw new Error(gl.getShaderInfoLog(s));
            gl.attachShader(p, s);
        }
        ["at", vertex.includes("tint") ? "tint" : "normal", "uv"].forEach((name, k) => gl.bindAttribLocation(p, k, name));
        gl.linkProgram(p);
        if (!gl.getProgramParameter(p, gl.LINK_STATUS)) throw new Error(gl.getProgramInfoLog(p));
        const at = {};
        for (let k = gl.getProgramParameter(p, gl.ACTIVE_UNIFORMS) - 1; k >= 0; k--) {
            const { name } = gl.getActiveUniform(p, k);
            at[name] = gl.getUniformLocation(p, name);
        }
        return { p, at };
    }

    mesh(at, normal, uv, indices, use) {
        const gl = this.gl, array = gl.createVertexArray(), buffers = [];
        gl.bindVertexArray(array);
        [[at, 3], [normal, 3], [uv, 2]].forEach(([data, wide], k) => {
            const b = gl.createBuffer();
            gl.bindBuffer(gl.ARRAY_BUFFER, b);
            gl.bufferData(gl.ARRAY_BUFFER, data, use);
            gl.enableVertexAttribArray(k);
            gl.vertexAttribPointer(k, wide, gl.FLOAT, false, 0, 0);
            buffers.push(b);
        });
        const index = gl.createBuffer();
        gl.bindBuffer(gl.ELEMENT_ARRAY_BUFFER, index);
        gl.bufferData(gl.ELEMENT_ARRAY_BUFFER, indices, use);
        gl.bindVertexArray(null);
        return { array, buffers, index, count: indices.length };
    }

    sphere() {
        const at = [], normal = [], index = [], rings = 40, round = 64, r = SPHERE.radius / METRE - 0.012;
        for (let i = 0; i <= rings; i++) for (let j = 0; j <= round; j++) {
            const a = Math.PI * i / rings, b = 2 * Math.PI * j / round;
            const n = [Math.sin(a) * Math.cos(b), Math.cos(a), Math.sin(a) * Math.sin(b)];
            normal.push(...n);
            at.push(...n.map((x, k) => SPHERE.at[k] / METRE + x * r));
            if (i < rings && j < round) {
                const k = i * (round + 1) + j;
                index.push(k, k + 1, k + round + 1, k + 1, k + round + 2, k + round + 1);
            }
        }
        const uv = new Float32Array(at.length / 3 * 2);
        return this.mesh(new Float32Array(at), new Float32Array(normal), uv, new Uint16Array(index), this.gl.STATIC_DRAW);
    }

    resize() {
        const ratio = this.soft ? 0.75 : Math.min(devicePixelRatio || 1, 2), box = this.canvas.getBoundingClientRect();
        const wide = Math.max(1, Math.round(box.width * ratio)), tall = Math.max(1, Math.round(box.height * ratio));
        if (this.canvas.width !== wide || this.canvas.height !== tall) {
            this.canvas.width = wide;
            this.canvas.height = tall;
        }
        this.wide = box.width || 1;
        this.tall = box.height || 1;
        this.ratio = ratio;
        const aspect = this.wide / this.tall, back = Math.max(1.1, 1.45 / aspect);
        this.camera = [0.5 * back, 0.95 + 0.62 * back, 0.45 + 3.62 * back];
        this.sight = look(this.camera, [0.05, 1.0, 0.3]);
        this.eye = times(perspective(0.66, aspect, 0.3, 30), this.sight);
        this.forward = [-this.sight[2], -this.sight[6], -this.sight[10]];
    }

    // New places from the library. Where a world went back and came out elsewhere, the picture glides there (or jumps, along an
    // axis by 0.6 metres or more).
    take(words, corrected) {
        const { places, error } = this;
        for (let i = 0; i < N; i++) for (let k = 0; k < 3; k++) {
            const now = words[i * 6 + k * 2] / METRE, j = i * 3 + k;
            if (corrected) {
                const e = this.shown[j] - now;
                error[j] = Math.abs(e) < 0.6 ? e : 0;
            }
            places[j] = now;
        }
        for (let j = 0; j < N * 3; j++) {
            error[j] *= 0.72;
            this.shown[j] = places[j] + error[j];
        }
    }

    // Learns the links of the world that it draws.
    join(links) {
        this.links = links;
        this.squares = squaresOf(links);
    }

    // The triangles along one live diagonal of each square whose three links all live, and the live threads that no triangle has.
    torn(live, count) {
        if (count === this.liveCount) return;
        this.liveCount = count;
        let k = 0;
        const t = this.triangles, { links } = this, covered = new Uint8Array(links.length);
        const add = (a, b, c, ...by) => {
            t[k++] = a;
            t[k++] = b;
            t[k++] = c;
            for (const l of by) covered[l] = 1;
        };
        for (const q of this.squares) {
            if (live[q.ae]) {
                if (live[q.ab] && live[q.be]) add(q.a, q.e, q.b, q.ab, q.be);
                if (live[q.ad] && live[q.de]) add(q.a, q.d, q.e, q.ad, q.de);
            } else if (live[q.bd]) {
                if (live[q.ab] && live[q.ad]) add(q.a, q.d, q.b, q.ab, q.ad);
                if (live[q.be] && live[q.de]) add(q.b, q.d, q.e, q.be, q.de);
            }
        }
        this.triangleCount = k;
        k = 0;
        links.forEach(([a, b, kind], l) => {
            if (kind !== STRETCH || !live[l] || covered[l]) return;
            this.threads[k++] = a;
            this.threads[k++] = b;
        });
        this.threadCount = k;
        const gl = this.gl;
        gl.bindVertexArray(null);
        gl.bindBuffer(gl.ELEMENT_ARRAY_BUFFER, this.cloth.index);
        gl.bufferData(gl.ELEMENT_ARRAY_BUFFER, t, gl.DYNAMIC_DRAW);
        this.threadIndex ??= gl.createBuffer();
        gl.bindBuffer(gl.ELEMENT_ARRAY_BUFFER, this.threadIndex);
        gl.bufferData(gl.ELEMENT_ARRAY_BUFFER, this.threads, gl.DYNAMIC_DRAW);
    }

    smooth() {
        const { shown: p, normals: n, triangles: t } = this;
        n.fill(0);
        for (let k = 0; k < this.triangleCount; k += 3) {
            const a = t[k] * 3, b = t[k + 1] * 3, c = t[k + 2] * 3;
            const ux = p[b] - p[a], uy = p[b + 1] - p[a + 1], uz = p[b + 2] - p[a + 2];
            const vx = p[c] - p[a], vy = p[c + 1] - p[a + 1], vz = p[c + 2] - p[a + 2];
            const x = uy * vz - uz * vy, y = uz * vx - ux * vz, z = ux * vy - uy * vx;
            n[a] += x;
            n[a + 1] += y;
            n[a + 2] += z;
            n[b] += x;
            n[b + 1] += y;
            n[b + 2] += z;
            n[c] += x;
            n[c + 1] += y;
            n[c + 2] += z;
        }
    }

    draw(colours, dots) {
        const gl = this.gl;
        this.smooth();
        const [at, normal] = this.cloth.buffers;
        gl.bindBuffer(gl.ARRAY_BUFFER, at);
        gl.bufferData(gl.ARRAY_BUFFER, this.shown, gl.DYNAMIC_DRAW);
        gl.bindBuffer(gl.ARRAY_BUFFER, normal);
        gl.bufferData(gl.ARRAY_BUFFER, this.normals, gl.DYNAMIC_DRAW);
        gl.bindFramebuffer(gl.FRAMEBUFFER, this.into);
        gl.viewport(0, 0, this.detail, this.detail);
        gl.clear(gl.DEPTH_BUFFER_BIT);
        gl.useProgram(this.depth.p);
        gl.uniformMatrix4fv(this.depth.at.light, false, this.light);
        this.put(this.cloth, this.triangleCount);
        this.put(this.ball, this.ball.count);
        gl.bindFramebuffer(gl.FRAMEBUFFER, null);
        gl.viewport(0, 0, this.canvas.width, this.canvas.height);
        gl.clearColor(...colours.sky, 1);
        gl.clear(gl.COLOR_BUFFER_BIT | gl.DEPTH_BUFFER_BIT);
        const { p, at: u } = this.main;
        gl.useProgram(p);
        gl.uniformMatrix4fv(u.eye, false, this.eye);
        gl.uniformMatrix4fv(u.light, false, this.light);
        gl.uniform3fv(u.sun, SUN);
        gl.uniform3fv(u.camera, this.camera);
        gl.uniform1f(u.dark, colours.dark);
        for (const name of ["ground", "sky", "ball", "front", "back", "thread"]) gl.uniform3fv(u[name], colours[name]);
        gl.activeTexture(gl.TEXTURE0);
        gl.bindTexture(gl.TEXTURE_2D, this.map);
        gl.uniform1i(u.shadow, 0);
        gl.uniform1i(u.kind, 0);
        this.put(this.floor, this.floor.count);
        gl.uniform1i(u.kind, 1);
        this.put(this.ball, this.ball.count);
        gl.uniform1i(u.kind, 2);
        this.put(this.cloth, this.triangleCount);
        if (this.threadCount) {
            gl.bindVertexArray(this.cloth.array);
            gl.bindBuffer(gl.ELEMENT_ARRAY_BUFFER, this.threadIndex);
            gl.drawElements(gl.LINES, this.threadCount, gl.UNSIGNED_SHORT, 0);
            gl.bindBuffer(gl.ELEMENT_ARRAY_BUFFER, this.cloth.index);
        }
        if (dots.length) {
            gl.useProgram(this.dots.p);
            gl.uniformMatrix4fv(this.dots.at.eye, false, this.eye);
            gl.uniform1f(this.dots.at.ratio, this.ratio);
            gl.bindVertexArray(this.dotArray);
            gl.bindBuffer(gl.ARRAY_BUFFER, this.dotBuffer);
            const words = dots.flatMap(({ i, tint, size }) => [...this.shown.subarray(i * 3, i * 3 + 3), ...tint, size]);
            gl.bufferData(gl.ARRAY_BUFFER, new Float32Array(words), gl.DYNAMIC_DRAW);
            gl.enable(gl.BLEND);
            gl.blendFunc(gl.ONE, gl.ONE_MINUS_SRC_ALPHA);
            gl.drawArrays(gl.POINTS, 0, dots.length);
            gl.disable(gl.BLEND);
        }
        gl.bindVertexArray(null);
    }

    put(mesh, count) {
        this.gl.bindVertexArray(mesh.array);
        this.gl.drawElements(this.gl.TRIANGLES, count, this.gl.UNSIGNED_SHORT, 0);
    }

    // Where particle i is on the canvas: x and y from its upper left corner, and how far from the eye.
    onCanvas(i) {
        const { shown: p, eye: m } = this, x = p[i * 3], y = p[i * 3 + 1], z = p[i * 3 + 2];
        const w = m[3] * x + m[7] * y + m[11] * z + m[15];
        const right = (m[0] * x + m[4] * y + m[8] * z + m[12]) / w, up = (m[1] * x + m[5] * y + m[9] * z + m[13]) / w;
        return [(right * 0.5 + 0.5) * this.wide, (0.5 - up * 0.5) * this.tall, w];
    }

    // The place in the scene, in metres, that is at a point of the canvas and so far from the eye.
    inScene(x, y, far) {
        const s = this.sight, f = Math.tan(0.33) * far;
        const u = (x / this.wide * 2 - 1) * f * this.wide / this.tall, v = (1 - y / this.tall * 2) * f;
        return [0, 1, 2].map(k => this.camera[k] + s[k * 4] * u + s[k * 4 + 1] * v - s[k * 4 + 2] * far);
    }
}
