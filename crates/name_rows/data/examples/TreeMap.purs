module TreeMap
  ( Map
  , empty
  , singleton
  , lookup
  , insert
  , insertWith
  , size
  , toList
  , fromList
  , module Maybe
  ) where

import Basics (class Eq, class Ord, class Semigroup, class Show, Ordering(..), compare, eq, flip, show, (+), (<>))
import Control (class Functor, map)
import List (List(..), foldl, (:))
import Maybe (Maybe(..))

-- | A map as a tree that is ordered by its keys.
data Map k v = Empty | Branch (Map k v) k v (Map k v)

type Entry k v = { key :: k, value :: v }

instance functorMap :: Functor (Map k) where
  map f = go
    where
    go Empty = Empty
    go (Branch l k v r) = Branch (go l) k (f v) (go r)

instance semigroupMap :: (Ord k, Semigroup v) => Semigroup (Map k v) where
  append a b = foldl (\m { key, value } -> insertWith (<>) key value m) a (toList b)

instance showMap :: (Show k, Show v) => Show (Map k v) where
  show m = "{" <> body (toList m) <> " }"
    where
    body :: List (Entry k v) -> String
    body Nil = ""
    body ({ key, value } : rest) = " " <> show key <> ": " <> show value <> body rest

empty :: forall k v. Map k v
empty = Empty

singleton :: forall k v. k -> v -> Map k v
singleton k v = Branch Empty k v Empty

lookup :: forall k v. Ord k => k -> Map k v -> Maybe v
lookup _ Empty = Nothing
lookup wanted (Branch l k v r) = case compare wanted k of
  LT -> lookup wanted l
  EQ -> Just v
  GT -> lookup wanted r

insert :: forall k v. Ord k => k -> v -> Map k v -> Map k v
insert = insertWith \_ new -> new

insertWith :: forall k v. Ord k => (v -> v -> v) -> k -> v -> Map k v -> Map k v
insertWith combine key value = go
  where
  go = case _ of
    Empty -> singleton key value
    Branch l k v r -> case compare key k of
      LT -> Branch (go l) k v r
      GT -> Branch l k v (go r)
      EQ -> Branch l k (combine v value) r

size :: forall k v. Map k v -> Int
size Empty = 0
size (Branch l _ _ r) = size l + 1 + size r

toList :: forall k v. Map k v -> List (Entry k v)
toList m = go m Nil
  where
  go Empty acc = acc
  go (Branch l key value r) acc = go l ({ key, value } : go r acc)

fromList :: forall k v. Ord k => List (Entry k v) -> Map k v
fromList = foldl (flip \{ key, value } -> insert key value) Empty
