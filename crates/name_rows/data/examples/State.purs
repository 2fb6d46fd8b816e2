module State
  ( State(..)
  , runState
  , evalState
  , get
  , put
  , modify
  , fresh
  , label
  , Tree(..)
  ) where

import Basics ((+), class Show, show, (<>))
import Control

newtype State s a = State (s -> { state :: s, value :: a })

runState :: forall s a. State s a -> s -> { state :: s, value :: a }
runState (State f) = f

evalState :: forall s a. State s a -> s -> a
evalState m s = (runState m s).value

instance functorState :: Functor (State s) where
  map f (State g) = State \s ->
    let
      result = g s
    in
      result { value = f result.value }

instance applyState :: Apply (State s) where
  apply mf ma = State \s0 ->
    let { state: s1, value: f } = runState mf s0
        { state: s2, value: a } = runState ma s1
    in { state: s2, value: f a }

instance applicativeState :: Applicative (State s) where
  pure value = State \state -> { state, value }

instance bindState :: Bind (State s) where
  bind m f = State \s -> case runState m s of
    { state, value } -> runState (f value) state
  discard m f = State \s -> case runState m s of
    { state, value } -> runState (f value) state

instance monadState :: Monad (State s)

get :: forall s. State s s
get = State \s -> { state: s, value: s }

put :: forall s. s -> State s {}
put s = State \_ -> { state: s, value: {} }

modify :: forall s. (s -> s) -> State s {}
modify f = do
  s <- get
  put (f s)

-- | The number that is next, and one more from then on.
fresh :: State Int Int
fresh = do
  n <- get
  put (n + 1)
  pure n

data Tree a = Leaf | Node (Tree a) a (Tree a)

-- | Numbers the nodes from left to right.
label :: forall a. Tree a -> State Int (Tree { number :: Int, item :: a })
label = case _ of
  Leaf -> pure Leaf
  Node l item r -> do
    l' <- label l
    number <- fresh
    r' <- label r
    pure (Node l' { number, item } r')

instance showTree :: Show a => Show (Tree a) where
  show Leaf = "."
  show (Node l a r) = "(" <> show l <> " " <> show a <> " " <> show r <> ")"
