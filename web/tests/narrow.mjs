// web/narrow.awk: it changes the module's heading alone, and stops where a pointer's size could change something.
import assert from 'node:assert/strict';
import { spawnSync } from 'node:child_process';
import { readFileSync } from 'node:fs';
import { arch } from 'node:os';
import { root, test } from './check.mjs';

const HEAD = 'target datalayout = "e-m:e-i64:64"\ntarget triple = "x86_64-unknown-linux-gnu"\n';
const TAIL = 'attributes #0 = { nounwind "probe-stack"="inline-asm" "stack-probe-size"="3072" "target-cpu"="x86-64" }\n';

function narrowed(module) {
  const words = { input: module, encoding: 'utf8', maxBuffer: 1e8 };
  const { status, stdout, stderr } = spawnSync('awk', ['-f', `${root}/web/narrow.awk`], words);
  return { status, out: stdout, said: stderr };
}

/** A function with a variable that is a pointer and one of bytes, and this line. */
const within = (line) => `${HEAD}define internal void @"f"(ptr %a0, i64 %a1) #0 {
  %r0 = alloca ptr, align 8
  %r1 = alloca [16 x i8], align 8
  store ptr %a0, ptr %r0, align 8
  ${line}
  ret void
}
${TAIL}`;

await test('the heading alone changes', () => {
  const folder = process.env.SPOONHARBOR_ARCHIVE ?? `${root}/target/staticlib${arch() === 'x64' ? '' : '/aarch64'}`;
  const module = readFileSync(`${folder}/spoonharbor.ll`, 'utf8');
  const { status, out, said } = narrowed(module);
  assert.deepEqual([status, said], [0, '']);
  const [before, after] = [module.split('\n').filter((line) => !line.startsWith('target datalayout')), out.split('\n')];
  const changed = before.flatMap((line, at) => line === after[at] ? [] : [[line, after[at]]]);
  assert.equal(before.length, after.length);
  assert.ok(changed.length > 1);
  for (const [line, now] of changed) {
    if (line.startsWith('target triple')) assert.equal(now, 'target triple = "wasm32-unknown-unknown"');
    else assert.equal(now, line.replace(/ "(target-cpu|probe-stack|stack-probe-size)"="[^"]*"/g, ''));
  }
  return `${before.length} lines, ${changed.length} changed`;
});

await test('what hangs on no size is taken', () => {
  for (const line of [
    '%r2 = load ptr, ptr %r0, align 8', 'store ptr %a0, ptr %r1, align 8', '%r2 = getelementptr i8, ptr %a0, i64 %a1',
    '%r2 = getelementptr inbounds nuw i8, ptr %r1, i64 8', '%r2 = load { i8, i64 }, ptr %r1, align 8',
    '%r2 = call { i64, i64 } @"g"(i64 %a1)', '%r2 = extractvalue { i64, i32 } %r9, 0', 'call void @llvm.memmove.p0.p0.i64(ptr %r1, ptr %a0, i64 16, i1 false)',
  ]) assert.deepEqual([narrowed(within(line)).status, narrowed(within(line)).said], [0, ''], line);
});

await test('what may hang on a size is not', () => {
  const bad = {
    '%r2 = ptrtoint ptr %a0 to i64': 'turns a pointer into something',
    '%r2 = inttoptr i64 %a1 to ptr': 'turns a pointer into something',
    '%r2 = getelementptr ptr, ptr %a0, i64 %a1': 'has a place that is not counted in bytes',
    '%r2 = getelementptr i32, ptr %a0, i64 %a1': 'has a place that is not counted in bytes',
    '%r2 = alloca { ptr, i64 }, align 8': 'is a variable of another type',
    '%r2 = alloca [2 x ptr], align 8': 'is a variable of another type',
    '%r2 = extractvalue { ptr, i64 } %r9, 0': 'has a structure',
    '%r2 = load { i32, ptr }, ptr %r1, align 8': 'has a structure',
    '%r2 = call { i64, i64, i64 } @"g"(i64 %a1)': 'has a structure',
    '%r2 = extractvalue { i64, { i64, i64 } } %r9, 0': 'has a structure',
    '%r2 = load <{ i8, i64 }>, ptr %r1, align 1': 'has a structure',
    '%r2 = load { i128, i64 }, ptr %r1, align 16': 'has a structure',
    '%r2 = load i64, ptr %r0, align 8': "looks at a pointer's bytes",
    'store i64 %a1, ptr %r0, align 8': "looks at a pointer's bytes",
    'call void @llvm.memmove.p0.p0.i64(ptr %r1, ptr %r0, i64 8, i1 false)': "looks at a pointer's bytes",
    'call void @"g"(ptr %r0)': "looks at a pointer's bytes",
    'store ptr %r0, ptr %r1, align 8': 'tells where a pointer stands',
    'call void asm sideeffect "nop", ""()': 'speaks of another processor',
  };
  for (const [line, said] of Object.entries(bad)) {
    const ran = narrowed(within(line));
    assert.deepEqual([ran.status, ran.said], [1, `narrow: line 7 ${said}:   ${line}\n`], line);
  }
  const outside = {
    '@x = constant ptr @y': 'is memory of another type than bytes',
    'declare void @free(ptr)': 'declares something else',
    '%t = type { ptr, i64 }': 'has a structure',
  };
  for (const [line, said] of Object.entries(outside)) {
    assert.match(narrowed(`${HEAD}${line}\n`).said, new RegExp(`^narrow: line 3 ${said}: `));
  }
  assert.deepEqual(narrowed(TAIL), { status: 1, out: 'attributes #0 = { nounwind }\n', said: 'narrow: the module names no target\n' });
});
