%% Calls of nodes of Pundewo, for programs that would rather fail than read an error.
%%
%% Nothing of it is needed to use such a node: messages, gen_server:call, links and monitors are Erlang's own.
-module(pundewo).

-export([call/2, call/3, connect/1, is_node/1, monitor/1, names/1]).

-type server() :: pid() | {Name :: atom(), node()}.

%% gen_server:call. A call that the other side refuses fails with {refused, Name}.
-spec call(server(), term()) -> term().
call(Server, Request) ->
    call(Server, Request, 5000).

-spec call(server(), term(), timeout()) -> term().
call(Server, Request, Timeout) ->
    case gen_server:call(Server, Request, Timeout) of
        {error, {refused, Name}} -> error({refused, Name});
        Answer -> Answer
    end.

%% Connects to a node. The other nodes of the cluster do not see that, since the node is hidden.
-spec connect(node()) -> ok | {error, noconnection}.
connect(Node) ->
    case net_kernel:hidden_connect_node(Node) of
        true -> ok;
        _ -> {error, noconnection}
    end.

%% Whether a node is one of Pundewo.
-spec is_node(node()) -> boolean().
is_node(Node) ->
    try names(Node) of
        Names -> is_list(Names)
    catch
        exit:_ -> false;
        error:_ -> false
    end.

%% Monitors a process of a node: the answer is a reference, and one message {'DOWN', Reference, process, Server, Reason} comes as
%% it has exited or if it had, or with noconnection. Erlang's own monitor/2 does the same.
-spec monitor(server()) -> reference().
monitor(Server) ->
    erlang:monitor(process, Server).

%% The names under which a node serves processes.
-spec names(node()) -> [atom()].
names(Node) ->
    call({pundewo, Node}, names).
