#!/usr/bin/env python3
"""Writes a whole design of at most so many bytes of Verilog, within the profile of docs/PROFILE.md: a top that chains instances of
stages, each a module of its own with assigns, a combinational and a clocked process.

usage: bench/lib/design.py SIZE >FILE          a design of at most SIZE bytes
       bench/lib/design.py parts SIZE >FILE    a design of at most SIZE bytes, of as many small modules as there is room for
       bench/lib/design.py states N >FILE      a machine of N states with outputs of 16 bits
"""

import sys

# <N> stands for the number of the stage, <V> and <W> for numbers that differ among stages.
STAGE = """\
// Stage <N>: some arithmetic on the word, a small table, and a counter that is fed back.
module stage_<N> (clk, enable, a, b, mode, y, z);
  parameter [7:0] SEED = 8'd<V>;
  input clk, enable;
  input [15:0] a;
  input [7:0] b;
  input [1:0] mode;
  output [15:0] y;
  output reg [7:0] z;
  reg [3:0] count = 4'd<W>;
  wire [15:0] sum = a + {b, SEED};
  wire [15:0] mixed = (a ^ {sum[7:0], sum[15:8]}) & ~{16{mode[0] & enable}};
  wire [7:0] low = a[7:0] - b;
  wire is_less = a < {b, b};

  // what is shown of the word
  assign y = is_less ? mixed | {12'd0, count} : sum << mode;

  always @* begin
    z = low;
    case (mode)
      2'd0: z = b ^ SEED;
      2'd1:
        if (enable) z = {b[3:0], a[7:4]};
        else z = low + 8'd<V>;
      2'd2: z = is_less ? low : b;
      default: z[3:0] = ~a[3:0];
    endcase
  end

  always @(posedge clk) begin
    if (enable && mode != 2'd3)
      count <= count + a[3:0];
    else if (is_less)
      count <= {count[2:0], ^b};
  end
endmodule

"""

HEAD = """\
// Made by bench/lib/design.py.
module top (input clk, input enable, input [15:0] a, input [7:0] b, input [1:0] mode, output [15:0] y, output [7:0] z);
  wire [15:0] y_0 = a;
  wire [7:0] z_0 = b;
"""

INSTANCE = """\
  wire [15:0] y_<M>;
  wire [7:0] z_<M>;
  stage_<N> u_<N> (.clk(clk), .enable(enable), .a(y_<N>), .b(z_<N>), .mode(mode ^ z_<N>[1:0]), .y(y_<M>), .z(z_<M>));
"""


def filled(text, n):
    return text.replace("<N>", str(n)).replace("<M>", str(n + 1)).replace("<V>", str(n * 37 % 251)).replace("<W>", str(n * 11 % 16))


def design(size):
    """As many stages as there is room for."""
    stages, instances = [], []
    used = len(HEAD) + 100
    for n in range(size):
        stage, instance = filled(STAGE, n), filled(INSTANCE, n)
        used += len(stage) + len(instance)
        if used > size:
            break
        stages.append(stage)
        instances.append(instance)
    count = len(stages)
    end = f"  assign y = y_{count};\n  assign z = z_{count};\nendmodule\n"
    return "".join(stages) + HEAD + "".join(instances) + end


PART = """\
module part_<N> (input [7:0] a, output [7:0] y);
  assign y = a + 8'd<V>;
endmodule
"""

PART_INSTANCE = """\
  wire [7:0] w_<M>;
  part_<N> u_<N> (.a(w_<N>), .y(w_<M>));
"""


def parts(size):
    """As many modules of one assign as there is room for, each with an instance."""
    modules, instances = [], []
    head = "// Made by bench/lib/design.py.\nmodule top (input [7:0] a, output [7:0] y);\n  wire [7:0] w_0 = a;\n"
    used = len(head) + 50
    for n in range(size):
        module, instance = filled(PART, n), filled(PART_INSTANCE, n)
        used += len(module) + len(instance)
        if used > size:
            break
        modules.append(module)
        instances.append(instance)
    return "".join(modules) + head + "".join(instances) + f"  assign y = w_{len(modules)};\nendmodule\n"


def states(count):
    """A machine with so many states: where each goes by two inputs, and what it shows."""
    width = max((count - 1).bit_length(), 1)
    lines = [
        "// Made by bench/lib/design.py.",
        "module top (input clk, input go, input [3:0] key, output reg [15:0] shown);",
        f"  reg [{width - 1}:0] state = 0, next;",
        "  always @(posedge clk) state <= next;",
        "  always @* begin",
        "    next = state;",
        "    shown = 16'd0;",
        "    case (state)",
    ]
    for n in range(count):
        lines += [
            f"      {width}'d{n}: begin",
            f"        shown = 16'd{n * 7919 % 65536};",
            f"        if (go) next = {width}'d{(n + 1) % count};",
            f"        else if (key == 4'd{n % 16}) next = {width}'d{(n * 3 + 1) % count};",
            "      end",
        ]
    lines += ["      default: next = 0;", "    endcase", "  end", "endmodule"]
    return "\n".join(lines) + "\n"


def main():
    if sys.argv[1] == "parts":
        sys.stdout.write(parts(int(sys.argv[2])))
    elif sys.argv[1] == "states":
        sys.stdout.write(states(int(sys.argv[2])))
    else:
        sys.stdout.write(design(int(sys.argv[1])))


if __name__ == "__main__":
    main()
