"""The bridge of dabplan: puts the FIBs of a plan into the ETI(NI) or EDI stream of a multiplexer, frame by frame.

The bridge is tested, not proved. It has no rule of plans in it: what goes on air is what `dabplan live` and `dabplan
merge` write. It needs Python 3.9 or later and its standard library.

Modules, from the bytes up:

- what streams are made of: `fibs`, `layout`, `frames`, `eti`, `reed_solomon`, `pft`, `fragmenter`, `edi`, `reader`;
- where they come from and go to: `addresses`, `lookup`, `waiting`, `sources`, `feeds`, `sinks`, `fifos`;
- the plan: `code_file`, `plan`, `chain`, `program`, `priority`, `player`, `holding`;
- which of its frames belongs to which of the stream: `moments`, `utc`, `placing`, `agreeing`, `follower`;
- a transmission that follows it, from several inputs: `inputs`, `pairing`, `supply`, `superframes`, `arrangement`,
  `composer`, `carried`, `compose`;
- its log: `past`, `lock`, `sync`, `copies`, `compact`, `log`;
- all of them together: `state`, `statefile`, `fit`, `beginning`, `retaking`, `reloading`, `air`, `bridge`;
- contacts: `orders`, `conditions`, `weekdays`, `given`;
- who watches it: `checking`, `labels`, `decoded`, `board`, `status`, `metrics`, `watch`,
  `access`, `receiving`, `handler`, `control`;
- the commands: `run`, `convert`, `conditioning`, `command`.
"""
