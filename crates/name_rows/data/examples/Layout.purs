-- Blocks in every place.
module Layout where

import Basics (negate, otherwise, (+), (-), (*), (<), ($), (<<<))
import Control (class Monad, bind, discard, pure)
import Maybe (Maybe(..))

oneLine :: Int
oneLine = let a = 1 in let b = 2 in a + b

nested :: Int -> Int
nested n =
  let
    f x =
      case x of
        0 -> 1
        k | k < 0 -> -k
          | otherwise ->
              let half = k - 1
              in half * 2
    g = f <<< f
  in
    g n

tuple :: Maybe Int -> Maybe Int -> Int
tuple a b = case a, b of
  Just x, Just y
    | x < y -> x
    | otherwise -> y
  Just x, Nothing -> x
  Nothing, Just y -> y
  Nothing, Nothing -> 0

inBrackets :: Array Int
inBrackets =
  [ case 1 of x -> x, let y = 2 in y
  , (case 1, 2 of a, b -> a + b)
  , if 1 < 2 then 3 else 4
  ]

steps :: forall m. Monad m => m Int -> m Int
steps action = do
  a <- action
  let b = a + 1
      c = b * 2
  if a < 3
    then pure a
    else do
      d <- action
      let e = d in pure (e + c)

applicative :: forall m. Monad m => m Int -> m { left :: Int, right :: Int }
applicative m = do
  found <- m
  both <- do
    left <- m
    right <- m
    pure { left, right }
  pure both { left = found }

whereBlocks :: Int -> Int
whereBlocks n = go n 0
  where
  go 0 acc = acc
  go k acc = go (less k) (acc + double)
    where
    double = k * 2
  less k = k - 1

handler :: (Int -> Maybe Int) -> Int -> Maybe Int
handler f x = f $ case x of
  0 -> 1
  n -> n

callback :: forall m. Monad m => ((Int -> m Int) -> m Int) -> m Int
callback run = run \n -> do
  pure $ n + 1
