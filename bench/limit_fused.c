/* limit_fused.c - limit.c with the last level fused: the links of the last level are never
   built. Every ring of the last level is read off the level before it: the ring of an old
   vertex is the edge vertices along its sides, the ring of an edge vertex is the four edge
   vertices and two corners of its two faces. Same numbers bit for bit, fewer dependent loads. */
#include "limit.c"
static inline V3 sum6(const V3 *p, u32 x, const u32 *r, u32 n, float own, float b) {
  V3 s = mul(p[x], own); for (u32 i = 0; i < n; i++) s = add(s, mul(p[r[i]], b)); return s; }
static inline void ring_edge(const topo *o, const u32 *em, u32 h, u32 *r) { /* inner edge vertex of side h, first met here */
  u32 t = o->tw[h]; r[0] = em[nx(h)]; r[1] = o->v[nx(h)]; r[2] = em[pv(t)]; r[3] = em[nx(t)]; r[4] = o->v[h]; r[5] = em[pv(h)]; }
static inline void ring_rim(const topo *o, const u32 *em, u32 h, u32 *r) { r[0] = o->v[nx(h)]; r[1] = em[nx(h)]; r[2] = em[pv(h)]; r[3] = o->v[h]; }
static inline u32 ring_old(const topo *o, const u32 *em, u32 x, u32 *r) {
  u32 n = o->val[x], h = o->st[x];
  if (o->tw[h] != NONE) { for (u32 i = 0; i < n; i++) { r[i] = em[h]; h = nx(o->tw[h]); } return 0; }
  r[0] = em[h]; for (u32 i = 1; i < n; i++) { r[i] = em[pv(h)]; h = o->tw[pv(h)]; } return 1;
}
static inline V3 cross64(V3 S, V3 T) { double sx=S.x, sy=S.y, sz=S.z, tx=T.x, ty=T.y, tz=T.z;
  V3 n = {(float)(sy*tz - sz*ty), (float)(sz*tx - sx*tz), (float)(sx*ty - sy*tx)}; return n; }
static inline V3 normal_inner(const V3 *p, const u32 *r, u32 n) { V3 S = {0,0,0}, T = {0,0,0};
  for (u32 i = 0; i < n; i++) { V3 a = p[r[i]]; S = add(S, mul(a, COS[n][i])); T = add(T, mul(a, SIN[n][i])); } return cross64(S, T); }
static inline V3 normal_rim(const V3 *p, u32 x, const u32 *q, u32 n) { V3 T, c = p[x], S = sub(p[q[n-1]], p[q[0]]);
#define R(i) p[q[i]]
  if (n == 2) T = sub(add(R(0), R(1)), mul(c, 2)); else if (n == 3) T = sub(R(1), c);
  else if (n == 4) T = add(add(add(add(mul(R(0),-1), mul(R(1),2)), mul(R(2),2)), mul(R(3),-1)), mul(c,-2));
  else { T = mul(add(R(0), R(n-1)), RIMW[n][0]); for (u32 k = 1; k < n-1; k++) T = add(T, mul(R(k), RIMW[n][k])); T = mul(T, -1); }
  return cross64(S, T); }
/* numbers of the edge vertices and the output corners; returns the vertex count */
static u32 number_edges(const topo *o, u32 *em, u32 *iout) {
  u32 n = o->nv;
  for (u32 f = 0; f < o->nf; f++) {
    for (u32 k = 0; k < 3; k++) { u32 h = 4*f + k, t = o->tw[h]; em[h] = t < h ? em[t] : n++; }
    const u32 *v = o->v + 4*f, *m = em + 4*f; u32 *w = iout + 12*f;
    w[0]=v[0]; w[1]=m[0]; w[2]=m[2]; w[3]=m[0]; w[4]=v[1]; w[5]=m[1]; w[6]=m[2]; w[7]=m[1]; w[8]=v[2]; w[9]=m[0]; w[10]=m[1]; w[11]=m[2];
  }
  return n;
}
static void last_f32(const topo *o, const u32 *em, const V3 *p, V3 *q, V3 *out, V3 *nrm) {
  u32 r[MOST_VALENCE];
  for (u32 x = 0; x < o->nv; x++) { u32 d = o->val[x]; q[x] = rim(o, x) ? rim_f32(o, x, p, 0.75f, 0.125f) : ring_f32(o, x, p, OR_[d], WR[d]); }
  u32 e = o->nv;
  for (u32 f = 0; f < o->nf; f++) for (u32 k = 0; k < 3; k++) {
    u32 h = 4*f + k, t = o->tw[h]; if (t < h) continue;
    u32 a = o->v[h], b = o->v[nx(h)]; if (a > b) { u32 s = a; a = b; b = s; }
    q[e++] = t == NONE ? add(mul(p[a], 0.5f), mul(p[b], 0.5f))
      : add(add(add(mul(p[a], 0.375f), mul(p[b], 0.375f)), mul(p[o->v[pv(h)]], 0.125f)), mul(p[o->v[pv(t)]], 0.125f));
  }
  const float rl = 1.0f/5.0f, ro = 1.0f - 2.0f*(1.0f/5.0f);
  for (u32 x = 0; x < o->nv; x++) { u32 d = o->val[x];
    if (ring_old(o, em, x, r)) { V3 s = mul(q[x], ro); s = add(s, mul(q[r[0]], rl)); out[x] = add(s, mul(q[r[d-1]], rl)); }
    else out[x] = sum6(q, x, r, d, OL[d], WL[d]); }
  e = o->nv;
  for (u32 f = 0; f < o->nf; f++) for (u32 k = 0; k < 3; k++) {
    u32 h = 4*f + k, t = o->tw[h]; if (t < h) continue;
    if (t == NONE) { V3 s = mul(q[e], ro); s = add(s, mul(q[o->v[nx(h)]], rl)); out[e] = add(s, mul(q[o->v[h]], rl)); }
    else { ring_edge(o, em, h, r); out[e] = sum6(q, e, r, 6, OL[6], WL[6]); }
    e++;
  }
  for (u32 x = 0; x < o->nv; x++) nrm[x] = ring_old(o, em, x, r) ? normal_rim(out, x, r, o->val[x]) : normal_inner(out, r, o->val[x]);
  e = o->nv;
  for (u32 f = 0; f < o->nf; f++) for (u32 k = 0; k < 3; k++) {
    u32 h = 4*f + k, t = o->tw[h]; if (t < h) continue;
    if (t == NONE) { ring_rim(o, em, h, r); nrm[e] = normal_rim(out, e, r, 4); } else { ring_edge(o, em, h, r); nrm[e] = normal_inner(out, r, 6); }
    e++;
  }
}
static void last_i32(const topo *o, const u32 *em, const I3 *p, I3 *q, I3 *out) {
  u32 r[MOST_VALENCE], e = o->nv;
  for (u32 x = 0; x < o->nv; x++) { i64 d = o->val[x]; I3 c = p[x];
    if (rim(o, x)) { I3 a = p[o->v[nx(o->st[x])]], b = p[rim_last(o, x)]; EACH(q[x], E_RIM); }
    else { L3 s = ring_i32(o, x, p); if (d == 6) EACH(q[x], E_6); else if (d == 3) EACH(q[x], E_3); else EACH(q[x], E_N); } }
  for (u32 f = 0; f < o->nf; f++) for (u32 k = 0; k < 3; k++) {
    u32 h = 4*f + k, t = o->tw[h]; if (t < h) continue;
    I3 a = p[o->v[h]], b = p[o->v[nx(h)]];
    if (t == NONE) EACH(q[e], E_MID); else { I3 c = p[o->v[pv(h)]], d = p[o->v[pv(t)]]; EACH(q[e], E_EDGE); }
    e++;
  }
#define SUM(N) L3 s = {0,0,0}; for (u32 i = 0; i < (u32)(N); i++) { I3 a = q[r[i]]; s.x += a.x; s.y += a.y; s.z += a.z; }
  for (u32 x = 0; x < o->nv; x++) { i64 d = o->val[x]; I3 c = q[x];
    if (ring_old(o, em, x, r)) { I3 a = q[r[0]], b = q[r[d-1]]; EACH(out[x], L_RIM); }
    else { SUM(d) if (d == 6) EACH(out[x], L_6); else if (d == 3) EACH(out[x], L_3); else EACH(out[x], L_N); } }
  e = o->nv;
  for (u32 f = 0; f < o->nf; f++) for (u32 k = 0; k < 3; k++) {
    u32 h = 4*f + k, t = o->tw[h]; if (t < h) continue;
    I3 c = q[e];
    if (t == NONE) { I3 a = q[o->v[nx(h)]], b = q[o->v[h]]; EACH(out[e], L_RIM); } else { ring_edge(o, em, h, r); SUM(6) EACH(out[e], L_6); }
    e++;
  }
}
limit_result limit_fused(int whole, u32 level, u32 nv, const void *pin, u32 nf, const u32 *idx,
                         void *pout, float *nout, u32 *iout, u32 *words, void *work) {
  if (level == 0 || level > 7 || nf > 4096 || nv > 4096) return limit_run(whole, level, nv, pin, nf, idx, pout, nout, iout, words, work);
  if (!ready) limit_tables();
  for (u32 i = 0; i < 3*nv; i++) {
    if (whole) { int32_t a = ((const int32_t *)pin)[i]; if (a < -1000000000 || a > 1000000000) return bad(4, i); }
    else { float a = ((const float *)pin)[i]; if (!(fabsf(a) <= 1099511627776.0f)) return bad(4, i); }
  }
  topo T[2]; u32 *w = words; lay(&T[0], &w, nf, nv);
  limit_result r = build(&T[0], nv, nf, idx, w, w + nv); if (r.no) return r;
  u32 rs = 0, F = nf, V = nv, E;
  for (u32 f = 0; f < nf; f++) for (u32 k = 0; k < 3; k++) rs += T[0].tw[4*f+k] == NONE;
  E = (3*nf + rs) / 2;
  for (u32 l = 0; l < level; l++) { u32 e = 2*E + 3*F; V += E; F *= 4; E = e; if (F > MAXF || V > MAXV) return bad(13, 0); }
  char *wk = (char *)work; void *P[2] = { wk, wk + 12u*(size_t)V }; memcpy(P[0], pin, 12u*(size_t)nv);
  int cur = 0;
  for (u32 l = 0; l + 1 < level; l++) { /* links of level l+1 follow those of level l: 8F(1/4 + 1/16 + ..) words in all */
    topo *o = &T[cur], *n = &T[cur ^ 1]; lay(n, &w, 4 * o->nf, o->nv + (3*o->nf + (rs << l)) / 2);
    if (whole) refine_i32(o, n, P[cur], P[cur ^ 1]); else refine_f32(o, n, P[cur], P[cur ^ 1]);
    cur ^= 1;
  }
  const topo *o = &T[cur]; u32 *em = w;
  r.vertices = number_edges(o, em, iout); r.faces = 4 * o->nf; r.rim = rs << level;
  if (whole) last_i32(o, em, P[cur], P[cur ^ 1], pout); else last_f32(o, em, P[cur], P[cur ^ 1], pout, (V3 *)nout);
  return r;
}
