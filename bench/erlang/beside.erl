%% erl -noshell -s beside main WORKLOAD TIMES [WAITING]: does a workload so many times between Erlang's processes, and prints
%% nothing. So many messages wait for the process that calls or spawns.
%% `bench/beside.py` measures it.
-module(beside).
-behaviour(gen_server).
-export([main/1, init/1, handle_call/3, handle_cast/2]).

main([Workload, Times]) ->
    do(Workload, number(Times)),
    halt(0);
main([Workload, Times, Waiting]) ->
    [self() ! {waits, It} || It <- lists:seq(1, number(Waiting))],
    main([Workload, Times]).

number(Word) -> list_to_integer(atom_to_list(Word)).

do(message, Times) ->
    Me = self(),
    One = spawn_link(fun() -> player(Me) end),
    Other = spawn_link(fun() -> player(Me) end),
    One ! {other, Other},
    Other ! {other, One},
    One ! Times,
    receive done -> ok end;
do(call, Times) ->
    {ok, Server} = gen_server:start_link(?MODULE, [], []),
    call(Server, Times);
do(spawn, Times) ->
    spawns(Times).

player(Above) ->
    receive {other, Other} -> play(Other, Above) end.

play(Other, Above) ->
    receive
        0 -> Above ! done;
        Left -> Other ! Left - 1, play(Other, Above)
    end.

call(_, 0) -> ok;
call(Server, Left) ->
    Left = gen_server:call(Server, Left, 600000),
    call(Server, Left - 1).

spawns(0) -> ok;
spawns(Left) ->
    {_, Monitor} = spawn_monitor(fun() -> ok end),
    receive {'DOWN', Monitor, process, _, normal} -> spawns(Left - 1) end.

init([]) -> {ok, none}.
handle_call(Asked, _, State) -> {reply, Asked, State}.
handle_cast(_, State) -> {noreply, State}.
