/* SPDX-License-Identifier: Apache-2.0 */
/* A small machine with a stack, whose instructions are the cases of a switch. */
#include "print.h"

enum { PUSH, ADD, SUBTRACT, MULTIPLY, SWAP, DOUBLE, JUMP_IF, CALL, RETURN, SHOW, DROP, HALT };

/* Shows the square and one more of each number from the one on top down to 1. */
static const signed char code[] = {
  /* 0 */ DOUBLE, CALL, 12, SHOW, DROP, PUSH, 1, SUBTRACT, DOUBLE, JUMP_IF, 0, HALT,
  /* 12 */ DOUBLE, MULTIPLY, PUSH, 1, SWAP, ADD, RETURN,
};

static long run(const signed char *bytes, long first) {
  long stack[32], returns[32];
  unsigned top = 0, back = 0, at = 0, steps = 0;
  stack[top++] = first;
  while (steps++ < 1000) {
    switch (bytes[at++]) {
      case PUSH: stack[top++] = bytes[at++]; break;
      case ADD: top--; stack[top - 1] += stack[top]; break;
      case SUBTRACT: top--; stack[top - 1] -= stack[top]; break;
      case MULTIPLY: top--; stack[top - 1] *= stack[top]; break;
      case SWAP: {
        long other = stack[top - 1];
        stack[top - 1] = stack[top - 2];
        stack[top - 2] = other;
        break;
      }
      case DOUBLE: stack[top] = stack[top - 1]; top++; break;
      case JUMP_IF: at = stack[--top] ? (unsigned)bytes[at] : at + 1; break;
      case CALL: returns[back++] = at + 1; at = bytes[at]; break;
      case RETURN: if (!back) return stack[top - 1]; at = returns[--back]; break;
      case SHOW: print_line("shows", stack[top - 1]); break;
      case DROP: top--; break;
      case HALT: return stack[top - 1];
      default: print("no such instruction\n"); return -1;
    }
  }
  return -2;
}

/* A second switch, over characters that lie close together. */
static const char *kind_of(int sign) {
  switch (sign) {
    case 'a': case 'e': case 'i': case 'o': case 'u': return "vowel";
    case 'y': return "either";
    case 'w': return "glide";
    case 'l': case 'r': return "liquid";
    case 'm': case 'n': return "nasal";
    case 'b': case 'd': case 'g': case 'k': case 'p': case 't': return "stop";
    default: return "other";
  }
}

int main(void) {
  for (const char *sign = "shuffler"; *sign; sign++) {
    print(kind_of(*sign));
    print("\n");
  }
  long end = run(code, 3);
  print_line("ends with", end);
  return (int)(end & 0xff);
}
