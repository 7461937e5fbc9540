// Uses every name of plantbal.d.mts as its types say; compiled and never run.
import { load, MOST_BYTES, OPTIONS, PlantbalError, STATUS, workerSource } from "../plantbal.mjs";
import type { Answer, Core, Input, Options, Session, Status } from "../plantbal.mjs";

export async function uses(bytes: Uint8Array, stop: AbortSignal): Promise<number> {
  const core: Core = await load(bytes, { worker: () => new Worker("/worker.js") });
  const options: Options = { ...OPTIONS, gap: 20, tests: true, form: "json" };
  const input: Input = "unit,A\n";
  const ran: Answer = await core.run(input, { ...options, signal: stop });
  const checked: Answer = await core.check(ran.text, { signal: stop });
  const session: Session = await core.session(options);
  const codes: Uint8Array = await session.rows(ran.text);
  const text: Uint8Array = await session.output();
  session.free();
  const status: Status = checked.status;
  if (status === STATUS.TOO_LARGE) throw new PlantbalError("failed", `${MOST_BYTES} ${workerSource.length}`);
  return codes.length + text.length + ran.milliseconds + ran.memory;
}

// @ts-expect-error an option that there isn't
export const wrong: Options = { gaps: 1 };
