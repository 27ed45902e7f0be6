%% SPDX-License-Identifier: Apache-2.0
%% A recording of what happens at the node of this emulator: where the parameter distnode_recording of kernel names a file, each call that
%% changes the node is appended to it, with its answer, before anything that the node said is sent. beam/test/audit.erl plays the
%% recordings of several emulators as one world. A recording has the cookies of its node.
-module(distnode_recording).
-export([start/0, connection/2, read/1]).
-export_type([line/0]).

%% Nanoseconds since the machine was started, and the process that made the call. The calls are those of distnode_nif, without the node
%% that they are for; a connection stands before the first call of the process that has it.
-type line() :: {Time :: non_neg_integer(), pid(), Call :: atom(), Arguments :: [term()], Answer :: term()}.

-spec start() -> ok.
start() ->
    case application:get_env(kernel, distnode_recording) of
        undefined -> ok;
        {ok, File} -> say(distnode_nif:recording(File), File)
    end.

say(ok, _) -> ok;
say(error, File) ->
    error_logger:error_msg("** distnode: nothing is recorded, since ~ts is no regular file that this user alone can use **~n", [File]).

%% The caller has this connection, and has made no call for it yet.
-spec connection(module(), term()) -> ok.
connection(Transport, Socket) ->
    case application:get_env(kernel, distnode_recording) of
        undefined -> ok;
        {ok, _} -> distnode_nif:connection(Transport:sockname(Socket), Transport:peername(Socket))
    end.

%% The lines of a recording. Of an emulator that was killed the last one may be cut short, and is left out.
-spec read(file:name_all()) -> {ok, [line()]} | {error, file:posix()}.
read(File) ->
    case file:read_file(File) of
        {ok, Bytes} -> {ok, [binary_to_term(Line) || <<Size:32, Line:Size/binary>> <= Bytes]};
        Error -> Error
    end.
