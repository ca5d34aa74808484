#!/bin/sh
# Times edi_messages, an interchange of a megabyte opened and read as orders: by the bench of edi_syntax.
exec "$(dirname "$0")/../edi_syntax/bench.sh" edi_messages
